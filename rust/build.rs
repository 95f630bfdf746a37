//! Links `libcapi.a`, which `make lib` writes to `target/staticlib`; the variable `VARSTORE_LIB` names another folder.
use std::env;
use std::path::{Path, PathBuf};

fn main() {
    println!("cargo:rerun-if-changed=build.rs");
    println!("cargo:rerun-if-env-changed=VARSTORE_LIB");
    let folder = env::var_os("VARSTORE_LIB")
        .map(PathBuf::from)
        .unwrap_or_else(|| Path::new(&env::var_os("CARGO_MANIFEST_DIR").unwrap()).join("../target/staticlib"));
    let library = folder.join("libcapi.a");
    println!("cargo:rerun-if-changed={}", library.display());
    if !library.exists() {
        panic!("run `make lib` first: {} is missing", library.display());
    }
    println!("cargo:rustc-link-search=native={}", folder.display());
    println!("cargo:rustc-link-lib=static=capi");
}
