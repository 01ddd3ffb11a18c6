// Links libstrided.a, from STRIDED_LIBRARY_DIR or from where `rt lib` in crates/strided writes it.
use std::env;
use std::path::PathBuf;

fn main() {
    println!("cargo:rerun-if-env-changed=STRIDED_LIBRARY_DIR");
    let folder = env::var_os("STRIDED_LIBRARY_DIR").map(PathBuf::from).unwrap_or_else(|| {
        let here = PathBuf::from(env::var_os("CARGO_MANIFEST_DIR").unwrap_or_default());
        here.join("../../crates/strided/out")
    });
    let archive = folder.join("libstrided.a");
    if !archive.is_file() {
        println!("cargo:warning=no {}: `rt lib` in crates/strided makes it, or STRIDED_LIBRARY_DIR names its folder", archive.display());
    }
    println!("cargo:rerun-if-changed={}", archive.display());
    println!("cargo:rustc-link-search=native={}", folder.display());
    println!("cargo:rustc-link-lib=static=strided");
}
