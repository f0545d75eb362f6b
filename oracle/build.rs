//! Links the static library of the port: from ../target/staticlib, or from the folder that NJUXALEET_LIB names.

use std::env;
use std::path::PathBuf;

fn main() {
    println!("cargo::rerun-if-env-changed=NJUXALEET_LIB");
    let folder = env::var_os("NJUXALEET_LIB").map_or_else(folder_of_the_port, PathBuf::from);
    let archive = folder.join("libnjuxaleet.a");
    println!("cargo::rerun-if-changed={}", archive.display());
    if !archive.is_file() {
        eprintln!("there is no file {}", archive.display());
        eprintln!("make it with tools/library, or name the folder that holds libnjuxaleet.a in NJUXALEET_LIB");
        std::process::exit(1);
    }
    println!("cargo::rustc-link-search=native={}", folder.display());
    println!("cargo::rustc-link-lib=static=njuxaleet");
}

fn folder_of_the_port() -> PathBuf {
    let package = env::var_os("CARGO_MANIFEST_DIR").expect("cargo names the folder of the package");
    PathBuf::from(package).join("../target/staticlib")
}
