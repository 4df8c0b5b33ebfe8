//! Looks for KLU (Debian's libsuitesparse-dev), which stands beside `crout_run` if it is there. `CROUT_NO_KLU=1` passes it over.

use std::fs;
use std::path::Path;

const HEADER: &str = "/usr/include/suitesparse/klu.h";

fn main() {
    println!("cargo:rustc-check-cfg=cfg(klu)");
    println!("cargo:rerun-if-env-changed=CROUT_NO_KLU");
    println!("cargo:rerun-if-changed={HEADER}");
    let passed_over = std::env::var_os("CROUT_NO_KLU").is_some_and(|value| value == "1");
    if !passed_over && Path::new(HEADER).exists() && library() {
        println!("cargo:rustc-cfg=klu");
        println!("cargo:rustc-link-lib=klu");
    }
}

/// Whether the library stands in /usr/lib or in a folder of it, as Debian has one for each kind of processor.
fn library() -> bool {
    let folders = fs::read_dir("/usr/lib").into_iter().flatten().flatten().map(|entry| entry.path());
    folders.chain(["/usr/lib".into()]).any(|folder| folder.join("libklu.so").exists())
}
