//! Links with the C library that pkg-config finds, as the build script of a berylwool-sys does.
use std::process::Command;

fn main() {
    let said = Command::new("pkg-config").args(["--libs", "berylwool"]).output().expect("pkg-config isn't installed");
    assert!(said.status.success(), "pkg-config: {}", String::from_utf8_lossy(&said.stderr));
    for word in String::from_utf8_lossy(&said.stdout).split_whitespace() {
        match word.split_at(2) {
            ("-L", folder) => println!("cargo:rustc-link-search=native={folder}"),
            ("-l", name) => println!("cargo:rustc-link-lib={name}"),
            _ => println!("cargo:rustc-link-arg={word}"),
        }
    }
    println!("cargo:rerun-if-env-changed=PKG_CONFIG_PATH");
}
