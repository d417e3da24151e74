//! Prints the report and writes docs/BENCH.md and its plots. An argument limits it to the rows and
//! curves whose names contain that text; then nothing is written.

use std::fs;
use std::path::Path;

use shinglebar_bench::plot;
use shinglebar_bench::report::{Axis, Report};
use shinglebar_bench::stages;

const PASSES: usize = 5;

fn main() {
    let filter = std::env::args().nth(1);
    let whole = filter.is_none();
    let report = Report::new(filter);
    for pass in 1..=PASSES {
        eprintln!("bench: pass {pass} of {PASSES}");
        stages::run(&report);
    }
    println!("{}\n{}", report.heading(PASSES), report.table());
    println!("{}", report.growth(Axis::Slots));
    println!("{}", report.growth(Axis::PayloadBytes));
    println!("{}", report.in_vain());
    if whole {
        let folder = Path::new(env!("CARGO_MANIFEST_DIR")).join("../docs");
        for (name, text) in [
            ("BENCH.md", report.page(PASSES)),
            ("bench-ratio.svg", plot::ratios(&report.rows())),
            ("bench-size.svg", plot::curves(&report.plotted())),
        ] {
            let file = folder.join(name);
            fs::write(&file, text).unwrap_or_else(|error| panic!("{}: {error}", file.display()));
            println!("written: docs/{name}");
        }
        println!("\nThe rows of README.md:\n\n{}", report.readme_table());
    }
}
