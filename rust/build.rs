//! Links the proved static library, where `tools/build birdaghol_c` leaves it.

use std::env;
use std::path::Path;

/// Tells cargo where the archive is, or the reader how to make it.
fn main() {
    let package = env::var("CARGO_MANIFEST_DIR").expect("cargo names the package's folder");
    let folder = Path::new(&package).join("../target/staticlib");
    let archive = folder.join("libbirdaghol.a");
    println!("cargo::rerun-if-changed={}", archive.display());
    if archive.is_file() {
        println!("cargo::rustc-link-search=native={}", folder.display());
        println!("cargo::rustc-link-lib=static=birdaghol");
    } else {
        println!("cargo::error={} is missing: run `tools/build birdaghol_c` in the repository first", archive.display());
    }
}
