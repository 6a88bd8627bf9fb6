//! Links the static library where it has been built. Without it the crate still builds, so that
//! the comparison itself can be tried out; the tests of the library then say what is missing.

use std::path::Path;

fn main() {
    println!("cargo:rustc-check-cfg=cfg(library)");
    let root = std::env::var("CARGO_MANIFEST_DIR").expect("cargo says where the crate is");
    let folder = Path::new(&root).join("../../crates/pantheryl/out");
    let archive = folder.join("libpantheryl.a");
    println!("cargo:rerun-if-changed={}", archive.display());
    if archive.exists() {
        println!("cargo:rustc-cfg=library");
        println!("cargo:rustc-link-search=native={}", folder.display());
        println!("cargo:rustc-link-lib=static=pantheryl");
    }
}
