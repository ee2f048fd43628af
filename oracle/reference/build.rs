//! Lays the reference job out in the build folder with FLURSYS's own files and builds it there. Nothing of it is part of this
//! repository: REFERENCE names the folder that holds its `setup`, by default shared/oracle beside the repository.
use std::path::{Path, PathBuf};
use std::process::Command;

fn main() {
    println!("cargo::rerun-if-env-changed=REFERENCE");
    let folder = match std::env::var_os("REFERENCE") {
        Some(folder) => PathBuf::from(folder),
        None => Path::new(env!("CARGO_MANIFEST_DIR")).join("../../../shared/oracle"),
    };
    println!("cargo::rerun-if-changed={}", folder.display());
    let setup = folder.join("setup");
    if !setup.exists() {
        println!("cargo::error={} is missing: set REFERENCE to the folder of the reference job", setup.display());
        return;
    }
    let out = Path::new(&std::env::var_os("OUT_DIR").expect("cargo sets OUT_DIR")).join("reference");
    let mut command = Command::new("sh");
    command.arg(&setup).arg(&out);
    for (name, _) in std::env::vars_os() {
        let text = name.to_string_lossy();
        if text.starts_with("CARGO_") && text != "CARGO_HOME" || text.starts_with("RUSTFLAGS") {
            command.env_remove(&name);
        }
    }
    let status = command.status().expect("sh runs");
    if !status.success() {
        println!("cargo::error={} ended with {status}", setup.display());
        return;
    }
    let built = out.join("target/release");
    println!("cargo::rustc-link-search=all={}", built.display());
    println!("cargo::rustc-link-search=all={}", built.join("deps").display());
}
