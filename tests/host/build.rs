// Links libsky.a into the files of tests/ only, so that the unit tests of the
// second program run without it.
use std::env::var;

fn main() {
    let beside = var("CARGO_MANIFEST_DIR").unwrap() + "/../../target/staticlib";
    let archive = var("SKY_LIB_DIR").unwrap_or(beside) + "/libsky.a";
    println!("cargo:rustc-link-arg-tests={archive}");
    println!("cargo:rerun-if-changed={archive}");
    println!("cargo:rerun-if-env-changed=SKY_LIB_DIR");
}
