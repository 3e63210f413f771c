//! Links the proved library, which `make library` makes in the repository's folder.

use std::path::PathBuf;

fn main() {
    println!("cargo:rerun-if-env-changed=ROADTHRUM_LIB_DIR");
    let folder = match std::env::var_os("ROADTHRUM_LIB_DIR") {
        Some(folder) => PathBuf::from(folder),
        None => PathBuf::from(env!("CARGO_MANIFEST_DIR")).join("../../target/staticlib"),
    };
    let library = folder.join("libroadthrum_c.a");
    println!("cargo:rerun-if-changed={}", library.display());
    if !library.exists() {
        println!("cargo:warning={} is missing: run `make library` first", library.display());
        std::process::exit(1);
    }
    println!("cargo:rustc-link-search=native={}", folder.display());
    println!("cargo:rustc-link-lib=static=roadthrum_c");
}
