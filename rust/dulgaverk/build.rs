//! Links target/staticlib/libdulgaverk.a, which `scripts/library` writes.

fn main() {
    let root = std::env::var("CARGO_MANIFEST_DIR").expect("set by cargo");
    let folder = format!("{root}/../../target/staticlib");
    let library = format!("{folder}/libdulgaverk.a");
    assert!(
        std::path::Path::new(&library).exists(),
        "{library} is missing: run `scripts/library` first"
    );
    println!("cargo:rustc-link-search=native={folder}");
    println!("cargo:rustc-link-lib=static=dulgaverk");
    println!("cargo:rerun-if-changed={library}");
}
