//! Links libtarnsatchel.a: the one that `make` leaves in the repository's crates/tarnsatchel/out, or the archive that TARN_ARCHIVE names.

use std::env;
use std::fs;
use std::path::{Path, PathBuf};

const ARCHIVE: &str = "libtarnsatchel.a";

fn main() {
    println!("cargo:rerun-if-env-changed=TARN_ARCHIVE");
    let written = cargo_folder("CARGO_MANIFEST_DIR").join("../../crates/tarnsatchel/out").join(ARCHIVE);
    let named = env::var_os("TARN_ARCHIVE").filter(|name| !name.is_empty());
    let archive = named.map_or(written, PathBuf::from);
    println!("cargo:rerun-if-changed={}", archive.display());
    println!("cargo:rustc-link-search=native={}", folder_of(&archive).display());
    println!("cargo:rustc-link-lib=static=tarnsatchel");
}

/// The archive's own folder, or that of a copy: one with a mistake planted in it may have any name, and rustc looks for `ARCHIVE`.
fn folder_of(archive: &Path) -> PathBuf {
    let found = fs::canonicalize(archive).unwrap_or_else(|error| panic!("{}: {error}", archive.display()));
    match found.parent() {
        Some(folder) if found.ends_with(ARCHIVE) => folder.to_path_buf(),
        _ => {
            let folder = cargo_folder("OUT_DIR");
            fs::copy(&found, folder.join(ARCHIVE)).unwrap_or_else(|error| panic!("{}: {error}", found.display()));
            folder
        }
    }
}

fn cargo_folder(name: &str) -> PathBuf {
    PathBuf::from(env::var_os(name).expect("cargo's folder"))
}
