//! Writes the first inputs of the fuzz target (fuzz/corpus) from the files of the program `replay`.

use std::fs;
use std::path::Path;

fn main() {
    let repository = Path::new(env!("CARGO_MANIFEST_DIR")).join("..");
    let read = |name: &str| {
        let file = repository.join("crates/replay").join(name);
        fs::read_to_string(&file).unwrap_or_else(|error| panic!("{}: {error}", file.display()))
    };
    let folder = repository.join("fuzz/corpus");
    fs::create_dir_all(&folder).expect("a folder for the corpus");
    for (name, bytes) in shinglebar_tests::corpus::files(&read("stdin"), &read("stdout")) {
        let file = folder.join(name);
        fs::write(&file, bytes).unwrap_or_else(|error| panic!("{}: {error}", file.display()));
    }
}
