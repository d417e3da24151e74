//! Writes the capture that tshark judges (tests/outside/frames.pcap).

use std::fs;
use std::path::Path;

use shinglebar_tests::outside;

fn main() {
    let file = Path::new(env!("CARGO_MANIFEST_DIR")).join("outside/frames.pcap");
    let capture = outside::capture(&outside::frames());
    fs::write(&file, capture).unwrap_or_else(|error| panic!("{}: {error}", file.display()));
}
