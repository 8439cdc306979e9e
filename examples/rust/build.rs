//! Tells cargo where libhitac.a is: in the folder that HITAC_LIBRARY names, or in target/library of this repository.
use std::env;
use std::path::PathBuf;

fn main() {
    let package = PathBuf::from(env::var("CARGO_MANIFEST_DIR").expect("cargo sets it"));
    let library = match env::var("HITAC_LIBRARY") {
        Ok(folder) => PathBuf::from(folder),
        Err(_) => package.join("../../target/library"),
    };
    println!("cargo:rerun-if-env-changed=HITAC_LIBRARY");
    println!("cargo:rerun-if-changed={}", library.join("libhitac.a").display());
    println!("cargo:rustc-link-search=native={}", library.display());
    println!("cargo:rustc-link-lib=static=hitac");
}
