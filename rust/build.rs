//! Links the archive of the library.
//!
//! The archive is `../target/staticlib/libshinglebar.a`; the environment variable
//! `SHINGLEBAR_ARCHIVE_DIR` names another folder.

use std::env;
use std::path::PathBuf;

fn main() {
    let package = PathBuf::from(env::var_os("CARGO_MANIFEST_DIR").expect("cargo sets this"));
    println!("cargo:rerun-if-changed=build.rs");
    println!("cargo:rerun-if-env-changed=SHINGLEBAR_ARCHIVE_DIR");
    let folder = match env::var_os("SHINGLEBAR_ARCHIVE_DIR") {
        Some(folder) => package.join(folder),
        None => package.join("../target/staticlib"),
    };
    let archive = folder.join("libshinglebar.a");
    println!("cargo:rerun-if-changed={}", archive.display());
    if !archive.is_file() {
        panic!(
            "{} is missing: run `make archive` first",
            archive.display()
        );
    }
    println!("cargo:rustc-link-search=native={}", folder.display());
    println!("cargo:rustc-link-lib=static=shinglebar");
    println!("cargo:archive={}", archive.display());
    println!("cargo:include={}", package.join("../include").display());
}
