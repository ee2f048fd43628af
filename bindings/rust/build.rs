//! Links the static library that `tools/staticlib capi` writes. HOOKYELLOW_LIB names another folder that holds it.
use std::path::{Path, PathBuf};

fn main() {
    let folder = match std::env::var_os("HOOKYELLOW_LIB") {
        Some(folder) => PathBuf::from(folder),
        None => Path::new(env!("CARGO_MANIFEST_DIR")).join("../../target/staticlib"),
    };
    let archive = folder.join("libcapi.a");
    println!("cargo::rerun-if-env-changed=HOOKYELLOW_LIB");
    println!("cargo::rerun-if-changed={}", archive.display());
    if !archive.exists() {
        println!("cargo::error={} is missing: run `tools/staticlib capi` in the repository first", archive.display());
        return;
    }
    println!("cargo::rustc-link-search=native={}", folder.display());
    println!("cargo::rustc-link-lib=static=capi");
}
