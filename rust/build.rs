//! Names the proved library to the linker.

mod archive;

fn main() {
    let package = std::env::var("CARGO_MANIFEST_DIR").unwrap();
    match archive::link(&std::path::Path::new(&package).join("..")) {
        // for the tests
        Ok(archives) => println!("cargo:rustc-env=SUGAMDELY_ARCHIVES={}", std::env::join_paths(archives).unwrap().display()),
        Err(message) => {
            eprintln!("{message}");
            std::process::exit(1)
        }
    }
}
