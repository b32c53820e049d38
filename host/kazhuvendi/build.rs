//! Links the proved library, which `make lib` writes below the repository's root.

use std::env;
use std::path::Path;

fn main() {
    let package = env::var("CARGO_MANIFEST_DIR").expect("a build script is told its package");
    let folder = Path::new(&package).join("../../target/staticlib");
    let library = folder.join("libkazhuvendi.a");
    println!("cargo::rerun-if-changed={}", library.display());
    if !library.is_file() {
        println!(
            "cargo::error=The proved library is missing: run `make lib` in the repository's root."
        );
    }
    println!("cargo::rustc-link-search=native={}", folder.display());
    println!("cargo::rustc-link-lib=static=kazhuvendi");
}
