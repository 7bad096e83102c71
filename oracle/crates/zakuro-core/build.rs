//! tells the crate how far it is optimised, for the driver's benchmark.
fn main() {
    println!("cargo:rerun-if-changed=build.rs");
    println!("cargo:rustc-env=ORIGINAL_OPT_LEVEL={}", std::env::var("OPT_LEVEL").unwrap());
}
