//! Finds the proved planner's archive, libgazrieksne.a: in the folder named by GAZRIEKSNE_LIB, or
//! else in the repository's target/staticlib.

use std::env;
use std::path::PathBuf;

fn main() {
    println!("cargo:rerun-if-env-changed=GAZRIEKSNE_LIB");
    let folder = match env::var_os("GAZRIEKSNE_LIB") {
        Some(folder) => PathBuf::from(folder),
        None => {
            let here = env::var_os("CARGO_MANIFEST_DIR").expect("set by cargo");
            PathBuf::from(here).join("../../target/staticlib")
        }
    };
    let archive = folder.join("libgazrieksne.a");
    println!("cargo:rerun-if-changed={}", archive.display());
    if !archive.exists() {
        println!("cargo:warning=no archive at {}", archive.display());
    }
    println!("cargo:rustc-link-search=native={}", folder.display());
    println!("cargo:rustc-link-lib=static=gazrieksne");
}
