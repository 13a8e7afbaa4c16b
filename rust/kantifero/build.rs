//! Links libkantifero.a, which `tools/build kantifero` writes to target/staticlib of the repository. The variable
//! KANTIFERO_LIB names another folder that holds it.
use std::env;
use std::path::PathBuf;

fn main() {
    let folder = match env::var_os("KANTIFERO_LIB") {
        Some(given) => PathBuf::from(given),
        None => PathBuf::from(env::var_os("CARGO_MANIFEST_DIR").expect("cargo sets it"))
            .join("../../target/staticlib"),
    };
    let archive = folder.join("libkantifero.a");
    if !archive.exists() {
        panic!(
            "{} is missing: run `tools/build kantifero` first",
            archive.display()
        );
    }
    println!("cargo:rustc-link-search=native={}", folder.display());
    println!("cargo:rustc-link-lib=static=kantifero");
    println!("cargo:rerun-if-changed={}", archive.display());
    println!("cargo:rerun-if-env-changed=KANTIFERO_LIB");
}
