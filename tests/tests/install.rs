//! `make install`, and the version that everything it installs has.

use std::fs;
use std::os::unix::fs::PermissionsExt;
use std::path::{Path, PathBuf};
use std::process::{Command, Output};

use shinglebar_tests::c_program;

fn root() -> PathBuf {
    let package = Path::new(env!("CARGO_MANIFEST_DIR"));
    package.parent().expect("the repository").to_path_buf()
}

fn text(file: impl AsRef<Path>) -> String {
    let file = file.as_ref();
    fs::read_to_string(file).unwrap_or_else(|error| panic!("{}: {error}", file.display()))
}

/// An empty folder for a test.
fn folder(test: &str) -> PathBuf {
    let folder = Path::new(env!("CARGO_TARGET_TMPDIR"))
        .join("install")
        .join(test);
    let _ = fs::remove_dir_all(&folder);
    fs::create_dir_all(&folder).expect("a folder");
    folder
}

/// `make install` with these variables. The driver and the man page are made in the folder, from the
/// archive that the tests have.
fn install(folder: &Path, variables: &[String]) -> Output {
    Command::new("make")
        .current_dir(root())
        .env_remove("MAKEFLAGS")
        .env_remove("MAKELEVEL")
        .env_remove("DESTDIR")
        .arg("install")
        .arg(format!("ARCHIVE={}", env!("SHINGLEBAR_ARCHIVE")))
        .arg(format!("DRIVER={}/made/shinglebar-port", folder.display()))
        .arg(format!("MADE={}/made", folder.display()))
        .args(variables)
        .output()
        .expect("make")
}

fn good(output: Output) -> String {
    assert!(
        output.status.success(),
        "{}: {}",
        output.status,
        String::from_utf8_lossy(&output.stderr)
    );
    String::from_utf8(output.stdout).expect("UTF-8")
}

/// The files below a folder with their permissions, by name.
fn files(folder: &Path) -> Vec<(String, u32)> {
    let mut found = Vec::new();
    let mut folders = vec![folder.to_path_buf()];
    while let Some(next) = folders.pop() {
        for entry in fs::read_dir(next).expect("a folder") {
            let path = entry.expect("an entry").path();
            if path.is_dir() {
                folders.push(path);
            } else {
                let mode = fs::metadata(&path).expect("a file").permissions().mode();
                let name = path.strip_prefix(folder).expect("a file below it");
                found.push((name.display().to_string(), mode & 0o777));
            }
        }
    }
    found.sort();
    found
}

/// The version in the header.
fn version() -> String {
    let header = text(root().join("include/shinglebar.h"));
    let mut found = header
        .lines()
        .filter_map(|line| line.strip_prefix("#define SHINGLEBAR_VERSION \""))
        .filter_map(|line| line.strip_suffix('"'));
    let version = found.next().expect("a version in the header").to_owned();
    assert_eq!(found.next(), None);
    version
}

/// What the driver prints of its commands.
fn help(driver: &Path, words: &[&str]) -> String {
    good(Command::new(driver).args(words).output().expect("driver"))
}

#[test]
fn the_rust_package_has_the_version_of_the_header() {
    assert_eq!(shinglebar::VERSION, version());
}

#[test]
fn make_install_puts_five_files_below_destdir_and_prefix() {
    let folder = folder("destdir");
    let destination = folder.join("destination");
    good(install(
        &folder,
        &[
            "PREFIX=/opt/shinglebar".to_owned(),
            format!("DESTDIR={}", destination.display()),
        ],
    ));
    let installed = destination.join("opt/shinglebar");
    assert_eq!(files(&destination).len(), files(&installed).len());
    let wanted = [
        ("bin/shinglebar-port", 0o755),
        ("include/shinglebar.h", 0o644),
        ("lib/libshinglebar.a", 0o644),
        ("lib/pkgconfig/shinglebar.pc", 0o644),
        ("share/man/man1/shinglebar-port.1", 0o644),
    ];
    let found = files(&installed);
    let found: Vec<(&str, u32)> = found.iter().map(|(n, mode)| (n.as_str(), *mode)).collect();
    assert_eq!(found, wanted);

    assert_eq!(
        text(installed.join("include/shinglebar.h")),
        text(root().join("include/shinglebar.h"))
    );
    let archive = fs::read(installed.join("lib/libshinglebar.a")).expect("the archive");
    assert!(archive == fs::read(env!("SHINGLEBAR_ARCHIVE")).expect("the archive"));
    // DESTDIR is in no file
    let described = text(installed.join("lib/pkgconfig/shinglebar.pc"));
    assert!(described.starts_with(
        "prefix=/opt/shinglebar\nincludedir=/opt/shinglebar/include\nlibdir=/opt/shinglebar/lib\n"
    ));
    assert!(described.contains(&format!("\nVersion: {}\n", version())));
}

#[test]
fn a_prefix_that_is_no_absolute_path_is_refused() {
    let folder = folder("relative");
    let output = install(&folder, &["PREFIX=here".to_owned()]);
    assert!(!output.status.success());
    let said = String::from_utf8(output.stderr).expect("UTF-8");
    assert!(said.contains("PREFIX is no absolute path: here"), "{said}");
    assert!(!root().join("here").exists());
}

/// Text as roff takes it.
fn escaped(text: &str) -> String {
    text.replace('\\', "\\e")
        .replace('-', "\\-")
        .replace('\'', "\\(aq")
        .replace('`', "\\(ga")
}

#[test]
fn the_man_page_has_every_command_and_option_of_help() {
    let folder = folder("man");
    good(install(
        &folder,
        &[format!("PREFIX={}/installed", folder.display())],
    ));
    let page = text(folder.join("installed/share/man/man1/shinglebar-port.1"));
    assert!(page.contains(&format!("\"Shinglebar {}\"", version())));
    assert!(!page.contains('@'), "{page}");
    let has = |line: &str| {
        let wanted = escaped(line);
        let found = line.is_empty() || page.lines().any(|line| line == wanted);
        assert!(found, "no line `{wanted}`");
    };

    let driver = folder.join("installed/bin/shinglebar-port");
    let told = help(&driver, &["--version"]);
    assert_eq!(told, format!("shinglebar-port {}\n", version()));
    let general = help(&driver, &["--help"]);
    let listed = |line: &&str| line.starts_with("  ");
    for line in general.lines().skip(1).filter(|line| !listed(line)) {
        has(line.strip_prefix("Exit status: ").unwrap_or(line));
    }
    let commands: Vec<&str> = general
        .lines()
        .filter(listed)
        .filter_map(|line| line.split_whitespace().nth(1))
        .collect();
    assert!(commands.len() >= 10, "{commands:?}");
    // the sections are in the order of --help
    let sections: Vec<&str> = page.split("\n.SS ").skip(1).collect();
    let names: Vec<&str> = sections
        .iter()
        .filter_map(|section| section.lines().next())
        .collect();
    assert_eq!(names, commands);
    for (command, section) in commands.iter().zip(sections) {
        let section = section.split("\n.SH ").next().expect("a section");
        let described = help(&driver, &["help", command]);
        let mut lines = described.lines();
        let first = lines.next().expect("a line");
        let (form, purpose) = first.split_once(" : ").expect("form and purpose");
        let (start, rest) = purpose.split_at(1);
        let purpose = escaped(&(start.to_uppercase() + rest));
        assert!(section.contains(&format!("\n.B {}\n.PP\n{purpose}\n", escaped(form))));
        // each with its own options, and nothing left out
        let mut options = 0;
        for line in lines {
            let Some(option) = line.strip_prefix("  -") else {
                has(line);
                continue;
            };
            let (option, meaning) = option.split_once("  ").expect("a meaning");
            let wanted = format!(
                "\n.TP\n.B \\-{}\n{}\n",
                escaped(option.trim()),
                escaped(meaning.trim())
            );
            assert!(
                format!("{section}\n").contains(&wanted),
                "{command}: {wanted}"
            );
            options += 1;
        }
        assert_eq!(section.matches("\n.TP\n").count(), options, "{command}");
    }
}

/// The value of a key of a pkg-config file, its variables filled in.
fn described(file: &str, key: &str) -> Vec<String> {
    let mut value = file
        .lines()
        .find_map(|line| line.strip_prefix(key)?.strip_prefix(": "))
        .expect(key)
        .to_owned();
    for line in file.lines() {
        if let Some((name, is)) = line.split_once('=') {
            value = value.replace(&format!("${{{name}}}"), is);
        }
    }
    value.split_whitespace().map(str::to_owned).collect()
}

#[test]
fn the_example_is_linked_by_what_the_pkg_config_file_says() {
    let folder = folder("linked");
    let installed = folder.join("installed");
    good(install(
        &folder,
        &[format!("PREFIX={}", installed.display())],
    ));
    let file = text(installed.join("lib/pkgconfig/shinglebar.pc"));
    let (flags, libraries) = (described(&file, "Cflags"), described(&file, "Libs"));
    let program = folder.join("port");
    c_program::compile_example(&program, &flags, &libraries);
    assert_eq!(
        c_program::run_on(&program, "00\n"),
        "refused 3: frame (or expanded result) outside 14 to 9,216 bytes\n"
    );

    // pkg-config itself, where there is one
    let asked = |word: &str| {
        Command::new("pkg-config")
            .env("PKG_CONFIG_PATH", installed.join("lib/pkgconfig"))
            .args([word, "shinglebar"])
            .output()
            .ok()
            .map(|output| good(output).trim().to_owned())
    };
    if let Some(said) = asked("--modversion") {
        assert_eq!(said, version());
        assert_eq!(asked("--cflags"), Some(flags.join(" ")));
        assert_eq!(asked("--libs"), Some(libraries.join(" ")));
    }
}
