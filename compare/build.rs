//! Reads the Rust source, patches it and writes it where the crate includes it. The build fails unless each patch finds its text exactly once.
//! Names the library to the linker, where it is there: the flag `ours` is set then.

use std::{env, fs, path::PathBuf};

#[path = "../rust/archive.rs"]
mod archive;

#[allow(dead_code)]
mod patches;

fn main() {
    println!("cargo:rerun-if-env-changed=ORACLE_SOURCE");
    println!("cargo:rerun-if-changed=build.rs");
    println!("cargo:rerun-if-changed=patches.rs");

    let manifest = PathBuf::from(env::var("CARGO_MANIFEST_DIR").unwrap());
    let source = env::var("ORACLE_SOURCE").map(PathBuf::from).unwrap_or_else(|_| manifest.join("../../shared/docs/src"));
    let out = PathBuf::from(env::var("OUT_DIR").unwrap());

    for (file, name) in patches::FILES {
        let path = source.join(file);
        println!("cargo:rerun-if-changed={}", path.display());
        let text = fs::read_to_string(&path)
            .unwrap_or_else(|e| panic!("{}: {e}\nSet ORACLE_SOURCE to the directory that holds the Rust source.", path.display()));
        let patched = patches::patched(file, &text).unwrap_or_else(|e| panic!("{file}: {e}"));
        fs::write(out.join(name), patched).unwrap();
        fs::write(out.join(format!("examples_{name}")), patches::examples(&text)).unwrap();
    }
    println!("cargo:rustc-env=ORACLE_SOURCE={}", source.display());

    println!("cargo:rustc-check-cfg=cfg(ours)");
    match archive::link(&manifest.join("..")) {
        Ok(_) => println!("cargo:rustc-cfg=ours"),
        Err(message) => println!("cargo:warning={}", message.replace('\n', " ")),
    }
}
