//! Links build/libcodeplug.a, which bindings/c/build makes, where the feature `link` is on.
use std::path::Path;

fn main() {
    println!("cargo:rerun-if-changed=build.rs");
    if std::env::var_os("CARGO_FEATURE_LINK").is_none() {
        return;
    }
    let build = Path::new(&std::env::var("CARGO_MANIFEST_DIR").unwrap()).join("../../build");
    let library = build.join("libcodeplug.a");
    println!("cargo:rerun-if-changed={}", library.display());
    if !library.exists() {
        eprintln!("build/libcodeplug.a is not there: run bindings/c/build in the repository first, which proves the library and makes it");
        std::process::exit(1);
    }
    println!("cargo:rustc-link-search=native={}", build.display());
    println!("cargo:rustc-link-lib=static=codeplug");
}
