use std::env;
use std::path::{Path, PathBuf};

/// The crates of the library's C interface: `tools/staticlib` writes an archive for each.
const CRATES: [&str; 5] = ["capi_exact", "capi_roads", "capi_floats", "capi_vectors", "capi_fillet"];

/// Names the archives to the linker: those in the directory SUGAMDELY_LIB or, where that is not set, in target/staticlib of the repository.
pub fn link(repository: &Path) -> Result<Vec<PathBuf>, String> {
    let directory = env::var("SUGAMDELY_LIB").map(PathBuf::from).unwrap_or_else(|_| repository.join("target/staticlib"));
    let archives = CRATES.map(|name| directory.join(format!("lib{name}.a")));
    println!("cargo:rerun-if-env-changed=SUGAMDELY_LIB");
    for archive in &archives {
        println!("cargo:rerun-if-changed={}", archive.display());
    }
    for (name, archive) in CRATES.iter().zip(&archives) {
        if !archive.exists() {
            return Err(format!(
                "{} is not there.\nRun `tools/staticlib {name}` in the repository's root, or set SUGAMDELY_LIB to the directory that holds the archives.",
                archive.display()
            ));
        }
    }
    println!("cargo:rustc-link-search=native={}", directory.display());
    for name in CRATES {
        println!("cargo:rustc-link-lib=static={name}");
    }
    Ok(archives.to_vec())
}
