//! Links the static library that the toolchain has built of crate `gabirong_c`; GABIRONG_LIB_DIR names another folder.

use std::env;
use std::path::Path;

fn main() {
    let here = env::var("CARGO_MANIFEST_DIR").expect("cargo sets CARGO_MANIFEST_DIR");
    let built = Path::new(&here).join("../../crates/gabirong_c/out");
    let folder = env::var("GABIRONG_LIB_DIR").unwrap_or_else(|_| built.display().to_string());
    println!("cargo:rerun-if-env-changed=GABIRONG_LIB_DIR");
    println!("cargo:rerun-if-changed={folder}/libgabirong_c.a");
    println!("cargo:rustc-link-search=native={folder}");
    println!("cargo:rustc-link-lib=static=gabirong_c");
}
