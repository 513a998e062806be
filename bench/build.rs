//! Compiles plain.c and calls.c for the processor that the library is built for, and echelonize.c where M4RI is at hand. Links crates/once_c.
use std::path::PathBuf;
use std::process::Command;

fn compile(source: &str) -> Option<PathBuf> {
    println!("cargo::rerun-if-changed={source}");
    let out = PathBuf::from(std::env::var_os("OUT_DIR").expect("cargo sets it"));
    let object = out.join(source).with_extension("o");
    let done = Command::new("cc")
        .args(["-std=c11", "-O2", "-march=x86-64-v2", "-Wall", "-Wextra", "-I../include", "-c", source, "-o"])
        .arg(&object)
        .output()
        .ok()?;
    if !done.status.success() {
        eprintln!("{}", String::from_utf8_lossy(&done.stderr));
        return None;
    }
    Some(object)
}

fn main() {
    println!("cargo::rustc-check-cfg=cfg(m4ri)");
    println!("cargo::rerun-if-changed=../include/worzubil.h");
    for source in ["plain.c", "calls.c"] {
        println!("cargo::rustc-link-arg={}", compile(source).expect("cc compiles it").display());
    }
    println!("cargo::rerun-if-changed=../target/staticlib/libonce.a");
    println!("cargo::rustc-link-arg=../target/staticlib/libonce.a");
    if let Some(echelonize) = compile("echelonize.c") {
        println!("cargo::rustc-link-arg={}", echelonize.display());
        println!("cargo::rustc-link-arg=-lm4ri");
        println!("cargo::rustc-cfg=m4ri");
    }
}
