//! Links the proved library that stands beside this file.

fn main() {
    println!("cargo::rustc-link-search=native={}", std::env::var("CARGO_MANIFEST_DIR").unwrap());
    println!("cargo::rustc-link-lib=static=sirbolta");
    println!("cargo::rerun-if-changed=libsirbolta.a");
}
