//! Each file of strided-rs ends in `#[cfg(test)] mod tests;`. Setting `test` makes our `tests.rs` that child module, which sees the private functions.

fn main() {
    println!("cargo:rustc-cfg=test");
    println!("cargo:rerun-if-changed=build.rs");
}
