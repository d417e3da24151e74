//! The check and the timing.

use crate::buffer::Buffer;
use crate::machine;
use std::hint::black_box;
use std::time::{Duration, Instant};

/// The time that a case may take in a pass, beyond the rounds it takes at least.
const CASE_TIME: Duration = Duration::from_millis(100);
const LEAST_ROUNDS: usize = 5;
const MOST_ROUNDS: usize = 2_000;
const WARM_UP_ROUNDS: usize = 3;

/// The least time that a batch of short calls takes, so that reading the clock costs nothing beside it.
const BATCH_TIME: Duration = Duration::from_micros(20);
const LONGEST_BATCH: u32 = 1 << 14;

/// A sample from here on is likely to hold times in which other work had the CPU: what counts is the
/// CPU time of the thread. Asking for that takes too long for a shorter one.
pub const LONG: Duration = Duration::from_micros(200);

/// The areas that a call may write. Both calls of a case get the same memory.
#[derive(Clone)]
pub struct Areas {
    pub table: Buffer,
    pub out: Buffer,
}

impl Areas {
    pub fn new(table: &[u8], out: &[u8]) -> Areas {
        Areas {
            table: Buffer::lent(table),
            out: Buffer::lent(out),
        }
    }

    fn lend(&mut self) -> Lent<'_> {
        Lent {
            table: &mut self.table,
            out: &mut self.out,
        }
    }

    fn restore(&mut self, start: &Areas) {
        self.table.copy_from_slice(&start.table);
        self.out.copy_from_slice(&start.out);
    }
}

/// The areas as a call gets them.
pub struct Lent<'a> {
    pub table: &'a mut [u8],
    pub out: &'a mut [u8],
}

/// The two functions of a case.
#[derive(Clone, Copy)]
pub struct Pair<F> {
    pub ours: F,
    pub baseline: F,
}

/// The nanoseconds of calls, in the order in which they were made.
#[derive(Clone, Default)]
pub struct Samples {
    pub ours: Vec<f64>,
    pub baseline: Vec<f64>,
}

/// Checks and times a pair of functions. `call` calls a function with the areas; `answer` says whether
/// the word is one that the case is about.
pub fn time<F: Copy>(
    name: &str,
    pair: Pair<F>,
    start: Areas,
    answer: impl Fn(u64) -> bool,
    call: impl Fn(F, &mut Lent) -> u64,
) -> Samples {
    let mut areas = start.clone();
    let changes = check(name, pair, &start, &mut areas, answer, &call);
    let mut bench = Bench {
        start: &start,
        areas: &mut areas,
        call,
        batch: 1,
    };
    if !changes {
        bench.choose_batch(pair.baseline);
    }
    bench.samples(pair)
}

/// Makes the call with both functions on the same bytes: the words and all bytes must be equal, and
/// the word such as the case is about. Says whether the call changes its table.
fn check<F: Copy>(
    name: &str,
    pair: Pair<F>,
    start: &Areas,
    areas: &mut Areas,
    answer: impl Fn(u64) -> bool,
    call: impl Fn(F, &mut Lent) -> u64,
) -> bool {
    let ours = call(pair.ours, &mut areas.lend());
    let ours_left = areas.clone();
    areas.restore(start);
    let baseline = call(pair.baseline, &mut areas.lend());
    assert!(
        ours == baseline,
        "{name}: the words differ: ours {ours:#x}, baseline {baseline:#x}"
    );
    assert!(
        *ours_left.table == *areas.table,
        "{name}: the bytes of the table differ"
    );
    assert!(
        *ours_left.out == *areas.out,
        "{name}: the bytes of the output area differ"
    );
    assert!(
        answer(ours),
        "{name}: {ours:#x} is not the answer of this case"
    );
    *areas.table != *start.table
}

struct Bench<'a, C> {
    start: &'a Areas,
    areas: &'a mut Areas,
    call: C,
    /// The calls that are timed together; 1 where the call changes its table.
    batch: u32,
}

impl<C> Bench<'_, C> {
    /// The nanoseconds of one call.
    fn sample<F: Copy>(&mut self, function: F) -> f64
    where
        C: Fn(F, &mut Lent) -> u64,
    {
        self.areas.restore(self.start);
        let function = black_box(function);
        let mut lent = black_box(self.areas.lend());
        let began_on_cpu = machine::cpu_time();
        let began = Instant::now();
        for _ in 0..self.batch {
            black_box((self.call)(function, &mut lent));
        }
        let mut took = began.elapsed();
        if took > LONG {
            took = machine::cpu_time().saturating_sub(began_on_cpu);
        }
        took.as_nanos() as f64 / f64::from(self.batch)
    }

    /// Doubles the batch until it takes the time that a batch should.
    fn choose_batch<F: Copy>(&mut self, function: F)
    where
        C: Fn(F, &mut Lent) -> u64,
    {
        let enough = BATCH_TIME.as_nanos() as f64;
        while self.batch < LONGEST_BATCH && self.sample(function) * f64::from(self.batch) < enough {
            self.batch *= 2;
        }
    }

    /// The two functions called in turn.
    fn samples<F: Copy>(&mut self, pair: Pair<F>) -> Samples
    where
        C: Fn(F, &mut Lent) -> u64,
    {
        for _ in 0..WARM_UP_ROUNDS {
            self.sample(pair.ours);
            self.sample(pair.baseline);
        }
        let mut samples = Samples::default();
        let began = Instant::now();
        for round in 0..MOST_ROUNDS {
            if round >= LEAST_ROUNDS && began.elapsed() >= CASE_TIME {
                break;
            }
            samples.ours.push(self.sample(pair.ours));
            samples.baseline.push(self.sample(pair.baseline));
        }
        samples
    }
}
