//! Writes the captures of the port driver (driver/data/*.pcap).

use std::fs;
use std::path::Path;

use shinglebar_tests::captures::{self, USUAL};

fn main() {
    let folder = Path::new(env!("CARGO_MANIFEST_DIR")).join("../driver/data");
    for (name, frames) in captures::all() {
        let file = folder.join(name).with_extension("pcap");
        fs::write(&file, captures::capture(USUAL, &frames))
            .unwrap_or_else(|error| panic!("{}: {error}", file.display()));
    }
}
