//! Links the archives of crates/ffi_c and crates/by_ref_c, from the folder WORZUBIL_LIB or else from target/staticlib of the repository.
use std::env;
use std::path::{Path, PathBuf};
use std::process::exit;

const ARCHIVES: [&str; 2] = ["by_ref", "ffi"];

fn folder() -> PathBuf {
    match env::var_os("WORZUBIL_LIB") {
        Some(folder) => PathBuf::from(folder),
        None => Path::new(&env::var_os("CARGO_MANIFEST_DIR").expect("cargo sets it")).join("../../target/staticlib"),
    }
}

fn main() {
    let folder = folder();
    println!("cargo:rerun-if-env-changed=WORZUBIL_LIB");
    println!("cargo:rustc-link-search=native={}", folder.display());
    for name in ARCHIVES {
        let archive = folder.join(format!("lib{name}.a"));
        println!("cargo:rerun-if-changed={}", archive.display());
        if !archive.is_file() {
            eprintln!("{} is not there: run tests/archives of the repository first, or set WORZUBIL_LIB", archive.display());
            exit(1);
        }
        println!("cargo:rustc-link-lib=static={name}");
    }
}
