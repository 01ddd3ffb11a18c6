//! Links our static library where it is wanted.

fn main() {
    println!("cargo:rerun-if-env-changed=STRIDED_LIBRARY");
    if std::env::var_os("CARGO_FEATURE_OURS").is_some() {
        let folder = std::env::var("STRIDED_LIBRARY").expect("STRIDED_LIBRARY is the folder of libstrided.a");
        println!("cargo:rerun-if-changed={folder}/libstrided.a");
        println!("cargo:rustc-link-search=native={folder}");
        println!("cargo:rustc-link-lib=static=strided");
    }
}
