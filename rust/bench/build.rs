//! Tells the program which compiler made it and its twin.

use std::process::Command;

fn main() {
    println!("cargo:rerun-if-changed=build.rs");
    let compiler = std::env::var_os("RUSTC").expect("cargo names the compiler");
    let output = Command::new(compiler).arg("--version").output().expect("the compiler says its version");
    println!("cargo:rustc-env=COMPILER_VERSION={}", String::from_utf8_lossy(&output.stdout).trim());
}
