//! Writes the input and the output of the program `replay` (crates/replay/stdin and stdout).

use std::fs;
use std::path::Path;

fn main() {
    let folder = Path::new(env!("CARGO_MANIFEST_DIR")).join("../crates/replay");
    let (input, output) = shinglebar_tests::vectors::files();
    for (name, text) in [("stdin", input), ("stdout", output)] {
        let file = folder.join(name);
        fs::write(&file, text).unwrap_or_else(|error| panic!("{}: {error}", file.display()));
    }
}
