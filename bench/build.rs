//! Notes the compiler for the report. The package in rust/ links the archive.

use std::env;
use std::process::Command;

fn main() {
    println!("cargo:rerun-if-changed=build.rs");
    println!("cargo:rustc-env=BENCH_RUSTC={}", rustc_version());
    println!("cargo:rustc-env=BENCH_FLAGS={}", flags());
}

fn rustc_version() -> String {
    let compiler = env::var_os("RUSTC").expect("cargo sets this");
    let output = Command::new(&compiler)
        .arg("--version")
        .output()
        .unwrap_or_else(|error| panic!("{compiler:?} cannot be run: {error}"));
    String::from_utf8_lossy(&output.stdout).trim().to_owned()
}

/// How the baseline is compiled. The library's flags are those of its archive.
fn flags() -> String {
    let set = |name: &str| env::var(name).unwrap_or_default();
    let extra = set("CARGO_ENCODED_RUSTFLAGS").replace('\x1f', " ");
    format!(
        "opt-level {}, {}, {}",
        set("OPT_LEVEL"),
        set("TARGET"),
        if extra.is_empty() {
            "default target CPU"
        } else {
            &extra
        }
    )
}
