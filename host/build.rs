//! Links the static library that `tools/artifacts` of the repository builds.

fn main() {
    let library = concat!(env!("CARGO_MANIFEST_DIR"), "/../target/staticlib");
    println!("cargo:rustc-link-search=native={library}");
    println!("cargo:rustc-link-lib=static=abi");
    println!("cargo:rerun-if-changed={library}/libabi.a");
}
