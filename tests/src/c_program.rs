//! C programs that use the header.

use std::fs;
use std::io::Write;
use std::path::Path;
use std::process::{Command, Stdio};

/// Runs a program, which must end well; what it printed.
pub fn run(program: &Path) -> String {
    run_on(program, "")
}

/// Runs a program on this input.
pub fn run_on(program: &Path, input: &str) -> String {
    let mut child = Command::new(program)
        .stdin(Stdio::piped())
        .stdout(Stdio::piped())
        .stderr(Stdio::piped())
        .spawn()
        .unwrap_or_else(|error| panic!("{} cannot be run: {error}", program.display()));
    let mut to = child.stdin.take().expect("its input");
    // A program may end without reading it.
    let _ = to.write_all(input.as_bytes());
    drop(to);
    let output = child.wait_with_output().expect("its end");
    assert!(
        output.status.success(),
        "{} failed: {}\n{}{}",
        program.display(),
        output.status,
        String::from_utf8_lossy(&output.stdout),
        String::from_utf8_lossy(&output.stderr)
    );
    String::from_utf8(output.stdout).expect("UTF-8")
}

/// Compiles a program of the folder `c` as C and as C++, links it with the archive and runs it; what
/// each of the two printed.
pub fn compile_and_run(name: &str) -> [String; 2] {
    let package = Path::new(env!("CARGO_MANIFEST_DIR"));
    let source = package.join("c").join(name);
    let languages: [(&str, &[&str]); 2] = [
        ("cc", &["-std=c99", "-pedantic"]),
        (
            "g++",
            &["-x", "c++", "-std=c++98", "-pedantic", "-Wno-long-long"],
        ),
    ];
    languages.map(|(compiler, options)| {
        let program = Path::new(env!("OUT_DIR")).join(format!("{name}-{compiler}"));
        let output = Command::new(compiler)
            .args(options)
            .args(["-Wall", "-Wextra", "-Werror", "-I"])
            .arg(package.join("../include"))
            .arg(&source)
            .args(["-x", "none"])
            .arg(env!("SHINGLEBAR_ARCHIVE"))
            .arg("-o")
            .arg(&program)
            .output()
            .unwrap_or_else(|error| panic!("{compiler} cannot be run: {error}"));
        assert!(
            output.status.success(),
            "{compiler} cannot compile {name}:\n{}",
            String::from_utf8_lossy(&output.stderr)
        );
        run(&program)
    })
}

/// Compiles a fuzz target of the folder `fuzz` with main.c and runs it on so many inputs; it must end well.
pub fn fuzz_target(name: &str, inputs: usize, mut input: impl FnMut() -> Vec<u8>) {
    let root = Path::new(env!("CARGO_MANIFEST_DIR")).join("..");
    let folder = Path::new(env!("OUT_DIR")).join(format!("fuzz_{name}"));
    let _ = fs::remove_dir_all(&folder);
    fs::create_dir_all(&folder).expect("a folder");
    let program = folder.join("target");
    let compiled = Command::new("cc")
        .current_dir(&root)
        .args(["-std=c99", "-pedantic", "-O2", "-Wall", "-Wextra"])
        .args(["-Werror", "-I", "include", "fuzz/main.c"])
        .arg(format!("fuzz/{name}.c"))
        .args([env!("SHINGLEBAR_ARCHIVE"), "-o"])
        .arg(&program)
        .output()
        .unwrap_or_else(|error| panic!("cc cannot be run: {error}"));
    let told = String::from_utf8_lossy(&compiled.stderr);
    assert!(compiled.status.success(), "{told}");
    let names: Vec<String> = (0..inputs).map(|number| number.to_string()).collect();
    for name in &names {
        fs::write(folder.join(name), input()).expect("an input");
    }
    let output = Command::new(&program)
        .current_dir(&folder)
        .args(&names)
        .output()
        .expect("the fuzz target runs");
    let told = String::from_utf8_lossy(&output.stderr);
    assert!(output.status.success(), "{}: {told}", output.status);
}

/// Compiles examples/port.c with these words before and behind its name.
pub fn compile_example(program: &Path, before: &[String], behind: &[String]) {
    let output = Command::new("cc")
        .args(["-std=c99", "-pedantic", "-Wall", "-Wextra", "-Werror"])
        .args(before)
        .arg(Path::new(env!("CARGO_MANIFEST_DIR")).join("../examples/port.c"))
        .args(behind)
        .arg("-o")
        .arg(program)
        .output()
        .unwrap_or_else(|error| panic!("cc cannot be run: {error}"));
    assert!(
        output.status.success(),
        "cc cannot compile the example:\n{}",
        String::from_utf8_lossy(&output.stderr)
    );
}
