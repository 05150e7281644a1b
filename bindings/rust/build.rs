//! Links libabi.a, which `bindings/build` proves and writes to target/staticlib. KERMEZHUL_STATICLIB names another folder.

use std::{env, path::PathBuf};

fn main() {
    let dir = match env::var_os("KERMEZHUL_STATICLIB") {
        Some(dir) => PathBuf::from(dir),
        None => PathBuf::from(env::var("CARGO_MANIFEST_DIR").unwrap()).join("../../target/staticlib"),
    };
    println!("cargo:rerun-if-env-changed=KERMEZHUL_STATICLIB");
    println!("cargo:rerun-if-changed={}", dir.join("libabi.a").display());
    assert!(dir.join("libabi.a").exists(), "{} is not there: run `bindings/build`, or say where it is in KERMEZHUL_STATICLIB", dir.join("libabi.a").display());
    println!("cargo:rustc-link-search=native={}", dir.display());
    println!("cargo:rustc-link-lib=static=abi");
}
