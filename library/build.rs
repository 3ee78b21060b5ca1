//! Links the proved static libraries, which `tools/staticlibs` makes.

use std::path::Path;

fn main() {
    let library = std::env::var("CARGO_MANIFEST_DIR").expect("set by cargo");
    let folder = Path::new(&library).join("../target/staticlib");
    println!("cargo:rerun-if-changed=build.rs");
    println!("cargo:rustc-link-search=native={}", folder.display());
    for name in ["run", "tally"] {
        println!("cargo:rerun-if-changed={}", folder.join(format!("lib{name}.a")).display());
        println!("cargo:rustc-link-lib=static={name}");
    }
}
