//! Links the static library that `rt lib` writes in crates/capi.

use std::path::Path;

fn main() {
    let here = std::env::var("CARGO_MANIFEST_DIR").expect("cargo sets the manifest's folder");
    let archive = Path::new(&here).join("../crates/capi/out");
    println!("cargo:rustc-link-search=native={}", archive.display());
    println!("cargo:rustc-link-lib=static=capi");
    println!("cargo:rerun-if-changed={}", archive.join("libcapi.a").display());
}
