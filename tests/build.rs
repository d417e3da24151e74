//! Compiles the C test of the header. The package in rust/ links the archive, and says where it and the
//! header are.

use std::env;
use std::path::{Path, PathBuf};
use std::process::Command;

fn main() {
    let path = |name: &str| PathBuf::from(env::var_os(name).expect("cargo sets this"));
    let package = path("CARGO_MANIFEST_DIR");
    let made = path("OUT_DIR");
    let archive = path("DEP_SHINGLEBAR_ARCHIVE");
    let include = path("DEP_SHINGLEBAR_INCLUDE");

    println!("cargo:rerun-if-changed=build.rs");
    println!("cargo:rerun-if-changed={}", archive.display());
    // The test files of the later calls compile their C program themselves.
    println!("cargo:rustc-env=SHINGLEBAR_ARCHIVE={}", archive.display());

    let source = package.join("c/null.c");
    println!(
        "cargo:rerun-if-changed={}",
        include.join("shinglebar.h").display()
    );
    println!("cargo:rerun-if-changed={}", source.display());
    println!(
        "cargo:rerun-if-changed={}",
        package.join("c/expect.h").display()
    );

    let c = ["-std=c99", "-pedantic"];
    let cpp = ["-x", "c++", "-std=c++98", "-pedantic", "-Wno-long-long"];
    let build = |name: &str, compiler: &str, options: &[&str], more: &[&str]| {
        let program = made.join(name);
        compile(
            compiler, options, more, &include, &source, &archive, &program,
        );
    };
    // An unused wrapper is not emitted, even without optimisation; where the compiler is told to
    // emit it, SHINGLEBAR_TABLE_ONLY leaves it out.
    build("null_c", "cc", &c, &["-O0"]);
    build("null_c_optimised", "cc", &c, &["-O2"]);
    build(
        "null_c_table_only",
        "cc",
        &c,
        &["-O0", "-fkeep-inline-functions", "-DSHINGLEBAR_TABLE_ONLY"],
    );
    build("null_cpp", "g++", &cpp, &["-O0"]);
    build("null_cpp_optimised", "g++", &cpp, &["-O2"]);
}

fn compile(
    compiler: &str,
    options: &[&str],
    more: &[&str],
    include: &Path,
    source: &Path,
    archive: &Path,
    program: &Path,
) {
    let mut command = Command::new(compiler);
    command
        .args(options)
        .args(more)
        .args(["-Wall", "-Wextra", "-Werror", "-I"])
        .arg(include)
        .arg(source)
        // What follows is an archive again, not a source file of the language given by -x.
        .args(["-x", "none"])
        .arg(archive)
        .arg("-o")
        .arg(program);
    let output = command
        .output()
        .unwrap_or_else(|error| panic!("{compiler} cannot be run: {error}"));
    if !output.status.success() {
        panic!(
            "{command:?} failed:\n{}",
            String::from_utf8_lossy(&output.stderr)
        );
    }
}
