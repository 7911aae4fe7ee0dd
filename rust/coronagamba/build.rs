//! Links the proved library's C archive, `libcoronagamba.a`.

use std::env;
use std::path::PathBuf;

const FOLDER_VARIABLE: &str = "CORONAGAMBA_LIB_DIR";

fn main() {
    println!("cargo::rerun-if-env-changed={FOLDER_VARIABLE}");
    let folder = env::var_os(FOLDER_VARIABLE).map_or_else(default_folder, PathBuf::from);
    // The linker may run in another folder.
    let folder = std::path::absolute(&folder).unwrap_or(folder);
    let archive = folder.join("libcoronagamba.a");
    println!("cargo::rerun-if-changed={}", archive.display());
    if !archive.is_file() {
        println!(
            "cargo::error=The archive {} is missing. Build it first, or name its folder in {FOLDER_VARIABLE}.",
            archive.display()
        );
        return;
    }
    println!("cargo::rustc-link-search=native={}", folder.display());
    println!("cargo::rustc-link-lib=static=coronagamba");
}

/// Where the repository's build leaves the archive.
fn default_folder() -> PathBuf {
    let here = env::var_os("CARGO_MANIFEST_DIR").expect("cargo names the crate's folder");
    PathBuf::from(here).join("../../target/staticlib")
}
