//! The cases with their times, and the report of them.

use std::cell::RefCell;
use std::fmt::Write;

use crate::machine;
use crate::measure::{time, Areas, Lent, Pair, Samples, LONG};

/// What the ratio of an ordinary row should not exceed.
pub const TARGET: f64 = 1.2;

/// The rows that README.md shows.
const README_ROWS: [&str; 8] = [
    "lookup: hit at the last of 4,096",
    "age: 4,096 learned, seconds left",
    "flush: one VLAN block",
    "flush: 8 nicknames, 20 mixed TLVs",
    "receive: General, 64 bytes, source at the last slot",
    "receive: General, 1,500 bytes, source at slot 0",
    "compact: from 1,500 bytes",
    "expand: to 1,500 bytes",
];

/// What grows along a curve.
#[derive(Clone, Copy, PartialEq, Eq, PartialOrd, Ord)]
pub enum Axis {
    Slots,
    PayloadBytes,
    /// The slots that a long flush message is about in vain: one, and all. Two points are no plot.
    SlotsInVain,
}

#[derive(Clone, Copy, PartialEq, Eq)]
pub struct Curve {
    pub name: &'static str,
    pub axis: Axis,
}

#[derive(Clone, PartialEq, Eq)]
enum Case {
    /// A row of the table.
    Row(String),
    /// A point of a curve.
    Point(Curve, usize),
}

/// Medians, in nanoseconds.
#[derive(Clone, Copy)]
pub struct Times {
    pub ours: f64,
    pub baseline: f64,
}

impl Times {
    pub fn ratio(&self) -> f64 {
        self.ours / self.baseline
    }
}

pub struct Row {
    pub name: String,
    pub times: Times,
}

impl Row {
    /// A message made to cost much: the target is not for it.
    pub fn is_worst(&self) -> bool {
        self.name.contains("worst")
    }

    /// The ratio as the table shows it is at most the target.
    pub fn meets(&self) -> bool {
        (self.times.ratio() * 100.0).round() <= TARGET * 100.0
    }
}

pub struct Report {
    filter: Option<String>,
    load: String,
    cases: RefCell<Vec<(Case, Samples)>>,
}

impl Report {
    /// With a filter, only the rows and curves whose names contain it.
    pub fn new(filter: Option<String>) -> Report {
        Report {
            filter,
            load: machine::load(),
            cases: RefCell::new(Vec::new()),
        }
    }

    fn chooses(&self, name: &str) -> bool {
        let filter = self.filter.as_deref();
        filter.is_none_or(|filter| name.contains(filter))
    }

    pub fn row<F: Copy>(
        &self,
        name: &str,
        pair: Pair<F>,
        start: Areas,
        answer: impl Fn(u64) -> bool,
        call: impl Fn(F, &mut Lent) -> u64,
    ) {
        if self.chooses(name) {
            let samples = time(name, pair, start, answer, call);
            self.add(Case::Row(name.to_owned()), samples);
        }
    }

    pub fn point<F: Copy>(
        &self,
        curve: Curve,
        size: usize,
        pair: Pair<F>,
        start: Areas,
        answer: impl Fn(u64) -> bool,
        call: impl Fn(F, &mut Lent) -> u64,
    ) {
        if self.chooses(curve.name) {
            let samples = time(curve.name, pair, start, answer, call);
            self.add(Case::Point(curve, size), samples);
        }
    }

    /// Adds to the samples of earlier passes.
    fn add(&self, case: Case, samples: Samples) {
        let mut cases = self.cases.borrow_mut();
        match cases.iter_mut().find(|(there, _)| *there == case) {
            Some((_, there)) => {
                there.ours.extend(samples.ours);
                there.baseline.extend(samples.baseline);
            }
            None => cases.push((case, samples)),
        }
    }

    pub fn rows(&self) -> Vec<Row> {
        let cases = self.cases.borrow();
        let rows = cases.iter().filter_map(|(case, samples)| match case {
            Case::Row(name) => Some(Row {
                name: name.clone(),
                times: medians(samples),
            }),
            Case::Point(..) => None,
        });
        rows.collect()
    }

    /// The curves, those along one axis together, with their points in order of size.
    pub fn curves(&self) -> Vec<(Curve, Vec<(usize, Times)>)> {
        let mut curves: Vec<(Curve, Vec<(usize, Times)>)> = Vec::new();
        for (case, samples) in self.cases.borrow().iter() {
            let Case::Point(curve, size) = case else {
                continue;
            };
            let point = (*size, medians(samples));
            match curves.iter_mut().find(|(there, _)| there == curve) {
                Some((_, points)) => points.push(point),
                None => curves.push((*curve, vec![point])),
            }
        }
        for (_, points) in &mut curves {
            points.sort_by_key(|(size, _)| *size);
        }
        curves.sort_by_key(|(curve, _)| curve.axis);
        curves
    }

    /// The curves of the plot.
    pub fn plotted(&self) -> Vec<(Curve, Vec<(usize, Times)>)> {
        let mut curves = self.curves();
        curves.retain(|(curve, _)| curve.axis != Axis::SlotsInVain);
        curves
    }

    /// How the times came about.
    pub fn heading(&self, passes: usize) -> String {
        format!(
            "{}; {}; load average {} at the start and {} at the end, the benchmark itself included; {}, \
             hand-written versions with {}. Nanoseconds per call: medians of calls of both made in \
             turn, in {passes} passes over all cases; of calls of more than {} us the time that they had a \
             CPU. Buffers are warm and not cleared; a table that \
             a call changes is restored before each call, outside the timed region.\n",
            machine::date(),
            machine::name(),
            self.load,
            machine::load(),
            env!("BENCH_RUSTC"),
            env!("BENCH_FLAGS"),
            LONG.as_micros(),
        )
    }

    pub fn table(&self) -> String {
        let rows = self.rows();
        let mut text = String::new();
        let _ = writeln!(
            text,
            "| {:<58} | {:>15} | {:>12} | ratio |",
            "case", "ours, ns a call", "hand-written"
        );
        let _ = writeln!(text, "|{:-<60}|{:->17}|{:->14}|------:|", "", ":", ":");
        for row in &rows {
            let _ = writeln!(
                text,
                "| {:<58} | {:>15} | {:>12} | {:>5.2} |",
                row.name,
                nanoseconds(row.times.ours),
                nanoseconds(row.times.baseline),
                row.times.ratio()
            );
        }
        let ordinary = || rows.iter().filter(|row| !row.is_worst());
        let _ = writeln!(
            text,
            "\nOf {} rows that are not called worst, {} have a ratio of at most {TARGET}.",
            ordinary().count(),
            ordinary().filter(|row| row.meets()).count()
        );
        text
    }

    /// The table of README.md, of the rows that there are.
    pub fn readme_table(&self) -> String {
        let mut text = String::from(
            "| case | ours, ns a call | hand-written | ratio |\n|---|---:|---:|---:|\n",
        );
        let rows = self.rows();
        for row in rows
            .iter()
            .filter(|row| README_ROWS.contains(&&row.name[..]))
        {
            let Times { ours, baseline } = row.times;
            let [ours, baseline] = [ours, baseline].map(nanoseconds);
            let (name, ratio) = (&row.name, row.times.ratio());
            let _ = writeln!(text, "| {name} | {ours} | {baseline} | {ratio:.2} |");
        }
        text
    }

    /// The points of the curves along an axis.
    pub fn growth(&self, axis: Axis) -> String {
        let curves = self.curves();
        let curves = || curves.iter().filter(|(curve, _)| curve.axis == axis);
        let Some((_, points)) = curves().next() else {
            return String::new();
        };
        let unit = match axis {
            Axis::Slots | Axis::SlotsInVain => "slots",
            Axis::PayloadBytes => "bytes",
        };
        let mut text = String::from("| ours / hand-written, ns a call |");
        for (size, _) in points {
            let _ = write!(text, " {} {unit} |", thousands(*size as u64));
        }
        text.push_str("\n|---|");
        text.push_str(&"---:|".repeat(points.len()));
        for (curve, points) in curves() {
            let _ = write!(text, "\n| {} |", curve.name);
            for (_, times) in points {
                let (ours, baseline) = (nanoseconds(times.ours), nanoseconds(times.baseline));
                let _ = write!(text, " {ours} / {baseline} |");
            }
        }
        text.push('\n');
        text
    }

    /// What long messages about unknown nicknames cost: judged for one slot, and on the longest table.
    pub fn in_vain(&self) -> String {
        let mut text = String::from(
            "| case | ours, ns a call: 1 slot | 4,096 slots | hand-written: 1 slot | 4,096 slots | ratio |\n\
             |---|---:|---:|---:|---:|---:|\n",
        );
        for (curve, points) in self.curves() {
            let (Axis::SlotsInVain, [(_, one), (_, all)]) = (curve.axis, &points[..]) else {
                continue;
            };
            let times = [one.ours, all.ours, one.baseline, all.baseline].map(nanoseconds);
            let (name, ratio) = (curve.name, all.ratio());
            let _ = writeln!(text, "| {name} | {} | {ratio:.2} |", times.join(" | "));
        }
        text
    }

    /// The page docs/BENCH.md.
    pub fn page(&self, passes: usize) -> String {
        format!(
            "# Benchmark: the numbers\n\n\
             Written by `make bench`; docs/BENCHMARK.md says what is compared and what is known of it.\n\n\
             {}\n{}\n\
             ![Ratio of each case](bench-ratio.svg)\n\n\
             ## Growth with the table\n\n{}\n\
             ## Growth with the flush message, on 4,096 slots\n\n{}\n\
             ![Cost by size](bench-size.svg)\n\n\
             ## Flush messages of 9,000 bytes whose nicknames no record has\n\n\
             On one slot a call takes the time of judging the message, and of preparing its eight nicknames; on \
             4,096 it looks at the table too.\n\n{}",
            self.heading(passes),
            self.table(),
            self.growth(Axis::Slots),
            self.growth(Axis::PayloadBytes),
            self.in_vain(),
        )
    }
}

fn medians(samples: &Samples) -> Times {
    Times {
        ours: median(samples.ours.clone()),
        baseline: median(samples.baseline.clone()),
    }
}

fn median(mut samples: Vec<f64>) -> f64 {
    samples.sort_by(f64::total_cmp);
    samples[samples.len() / 2]
}

fn nanoseconds(time: f64) -> String {
    if time < 99.95 {
        format!("{time:.1}")
    } else {
        thousands(time.round() as u64)
    }
}

/// A number with commas.
pub fn thousands(number: u64) -> String {
    let digits = number.to_string();
    let mut text = String::new();
    for (place, digit) in digits.chars().enumerate() {
        if place > 0 && (digits.len() - place).is_multiple_of(3) {
            text.push(',');
        }
        text.push(digit);
    }
    text
}
