//! Links libslatewhim.a from the folder that SLATEWHIM_LIB names.

use std::path::Path;

fn main() {
    println!("cargo:rerun-if-env-changed=SLATEWHIM_LIB");
    let folder = std::env::var("SLATEWHIM_LIB")
        .expect("SLATEWHIM_LIB has to name the folder of libslatewhim.a");
    let folder = Path::new(&folder)
        .canonicalize()
        .unwrap_or_else(|error| panic!("SLATEWHIM_LIB, {folder}: {error}"));
    let archive = folder.join("libslatewhim.a");
    assert!(
        archive.is_file(),
        "there is no {}: ./library makes it",
        archive.display()
    );
    println!("cargo:rerun-if-changed={}", archive.display());
    println!("cargo:rustc-link-search=native={}", folder.display());
    println!("cargo:rustc-link-lib=static=slatewhim");
}
