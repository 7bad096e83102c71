//! links the port's static library: KERNEL_LIB, or crates/host/out/libhost.a of the repository.
use std::path::PathBuf;

fn main() {
    println!("cargo:rerun-if-env-changed=KERNEL_LIB");
    let here = PathBuf::from(std::env::var("CARGO_MANIFEST_DIR").unwrap());
    let lib = std::env::var("KERNEL_LIB").map(PathBuf::from).unwrap_or_else(|_| here.join("../../../crates/host/out/libhost.a"));
    let lib = lib.canonicalize().unwrap_or_else(|e| panic!("{}: {e}", lib.display()));
    println!("cargo:rerun-if-changed={}", lib.display());
    println!("cargo:rustc-link-search=native={}", lib.parent().unwrap().display());
    println!("cargo:rustc-link-lib=static:+verbatim={}", lib.file_name().unwrap().to_str().unwrap());
}
