//! Links the archive of the proved heap, libheap.a, to the programs that
//! call it. It is looked for in the folder that HEAP_ARCHIVE_DIR names, or
//! where `tools/archive` writes it.

use std::path::{Path, PathBuf};

const ARCHIVE: &str = "libheap.a";
const USUAL_FOLDER: &str = "../../target/staticlib";
const CALLERS: [&str; 2] = ["compare", "measure"];

fn main() {
    let package = std::env::var("CARGO_MANIFEST_DIR").unwrap_or_default();
    let folder = std::env::var("HEAP_ARCHIVE_DIR").unwrap_or(USUAL_FOLDER.to_string());
    let archive: PathBuf = Path::new(&package).join(folder).join(ARCHIVE);
    println!("cargo:rerun-if-env-changed=HEAP_ARCHIVE_DIR");
    println!("cargo:rerun-if-changed=build.rs");
    println!("cargo:rerun-if-changed={}", archive.display());
    if !archive.exists() {
        println!("cargo:warning={} is not there: run `tools/archive`", archive.display());
    }
    for caller in CALLERS {
        println!("cargo:rustc-link-arg-bin={caller}={}", archive.display());
    }
}
