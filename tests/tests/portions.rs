//! Flush in portions (document 02, 2026-05), compared through the C boundary.

use std::fs;
use std::path::Path;
use std::process::Command;

use shinglebar_tests::compare;
use shinglebar_tests::generate::{self, Pool};
use shinglebar_tests::pages::Pages;
use shinglebar_tests::random::Random;
use shinglebar_tests::reference::{self, Record, RECORD};
use shinglebar_tests::run::{self, Tally};

fn cleared(word: u64) -> u64 {
    word >> 8 & 0xFFFF
}

fn next(word: u64) -> u64 {
    word >> 24 & 0xFFFF
}

fn examined(word: u64) -> u64 {
    word >> 40 & 0xFFFF
}

/// A table of a good length, now and then a long one.
fn good_table(random: &mut Random, pool: &Pool) -> Vec<u8> {
    let mut table = generate::good_length_table(random, pool);
    while table.len() > 80 * RECORD && !random.one_in(20) {
        table = generate::good_length_table(random, pool);
    }
    table
}

fn count_k(tally: &mut Tally, slot: u64, k: u64, n: u64) {
    tally.situation(match k {
        0 => "k 0",
        1 => "k 1",
        u64::MAX => "k the largest number",
        _ if k + 1 == n => "k n - 1",
        _ if k == n => "k n",
        _ if k == n + 1 => "k n + 1",
        _ if k > n => "k above n + 1",
        _ => "k between",
    });
    tally.situation(match slot {
        0 => "slot 0",
        _ if slot.checked_add(1) == Some(n) => "the last slot",
        _ if slot == n => "slot n",
        _ if slot > n => "a slot above n",
        _ => "a slot between",
    });
}

fn count_portion(tally: &mut Tally, word: u64, n: u64) {
    if word & 0xFF != 64 {
        return;
    }
    tally.situation(match cleared(word) {
        0 => "none cleared",
        count if count == examined(word) => "all examined cleared",
        _ => "some cleared",
    });
    tally.situation(if next(word) == n {
        "done"
    } else {
        "slots are left"
    });
    tally.situation(match examined(word) {
        ..=4 => "1 to 4 examined",
        5..=64 => "5 to 64 examined",
        _ => "more than 64 examined",
    });
}

#[test]
fn a_portion_answers_and_clears_as_the_paper_says() {
    run::cases(
        "a_portion_answers_and_clears_as_the_paper_says",
        1,
        run::PORTION,
        &[
            "k 0",
            "k 1",
            "k n - 1",
            "k n",
            "k n + 1",
            "k above n + 1",
            "k the largest number",
            "k between",
            "slot 0",
            "the last slot",
            "slot n",
            "a slot above n",
            "a slot between",
            "none cleared",
            "some cleared",
            "all examined cleared",
            "done",
            "slots are left",
            "1 to 4 examined",
            "5 to 64 examined",
            "more than 64 examined",
            "24 before 15",
        ],
        |random, tally| {
            let pool = Pool::new(random);
            let payload = generate::payload(random, &pool);
            let table = generate::table(random, &pool);
            let ingress = generate::ingress(random, &pool);
            let n = (table.len() / RECORD) as u64;
            for _ in 0..4 {
                let (slot, k) = generate::portion(random, table.len());
                let mut after = table.clone();
                let word = compare::flush_portion(random, ingress, &payload, slot, k, &mut after);
                tally.word(word);
                if word != 2 {
                    count_k(tally, slot, k, n);
                }
                count_portion(tally, word, n);
                if word == 24 && reference::flush(ingress, &payload, &mut table.clone()) == 15 {
                    tally.situation("24 before 15");
                }
                if word & 0xFF == 64 {
                    // No byte outside the portion changes.
                    let (from, to) = (slot as usize * RECORD, next(word) as usize * RECORD);
                    assert!(after[..from] == table[..from] && after[to..] == table[to..]);
                }
            }
            // Each payload cut: 15 comes before any clearing, at a later slot too.
            for length in generate::cuts(random, payload.len()) {
                let slot = random.below(n.max(1));
                let mut after = table.clone();
                let cut = &payload[..length];
                let word = compare::flush_portion(random, ingress, cut, slot, u64::MAX, &mut after);
                tally.word(word);
                if word == 15 {
                    assert_eq!(after, table);
                }
            }
        },
    );
}

/// "With the same message and nothing else touching the table, the end and the summed cleared counts are
/// those of the whole flush"; "From slot 0 a table of n slots is done after n divided by k calls, rounded up".
#[test]
fn all_portions_together_are_the_whole_flush() {
    run::cases(
        "all_portions_together_are_the_whole_flush",
        4,
        &[(64, "portion done")],
        &["one k", "k may differ", "some cleared", "none cleared"],
        |random, tally| {
            let pool = Pool::new(random);
            let payload = generate::good_payload(random, &pool);
            let ingress = generate::ingress(random, &pool);
            let table = good_table(random, &pool);
            let n = (table.len() / RECORD) as u64;
            let mut whole = table.clone();
            let flushed = compare::flush(random, ingress, &payload, &mut whole);
            assert_eq!(flushed & 0xFF, 67);

            let same = random.one_in(2);
            let most = random.pick(&[1, 2, 7, 64, n, n + 1]);
            let mut portions = table.clone();
            let (mut slot, mut sum, mut calls) = (0, 0, 0);
            while slot < n {
                let k = if same { most } else { 1 + random.below(most) };
                let word =
                    compare::flush_portion(random, ingress, &payload, slot, k, &mut portions);
                tally.word(word);
                assert_eq!(examined(word), k.min(n - slot));
                slot = next(word);
                sum += cleared(word);
                calls += 1;
            }
            assert!(portions == whole && sum == cleared(flushed));
            if same {
                assert_eq!(calls, n.div_ceil(most));
            }
            tally.situation(if same { "one k" } else { "k may differ" });
            tally.situation(match sum {
                0 => "none cleared",
                _ => "some cleared",
            });
        },
    );
}

/// The nickname that a frame for the port comes from.
fn learns_from(random: &mut Random, pool: &Pool, settings: &reference::Settings) -> Option<u32> {
    let frame = generate::good_frame(random, pool, settings).bytes();
    let mut table = [0; RECORD];
    reference::receive(settings, &frame, &mut table, &mut [0; 9216]);
    match reference::read(&table) {
        Record::Learned(entry) => Some(u32::from(entry.nickname)),
        _ => None,
    }
}

/// "Frames may be learned in between: a passed slot stays, a later one is judged when reached."
#[test]
fn portions_with_frames_in_between_are_as_the_paper_says() {
    run::cases(
        "portions_with_frames_in_between_are_as_the_paper_says",
        4,
        run::PORTION,
        &[
            "learned into a passed slot, which stays",
            "learned into a slot to come, and cleared there",
            "the sum is the whole flush's",
            "the sum is not the whole flush's",
        ],
        |random, tally| {
            let pool = Pool::new(random);
            let mut payload = generate::good_payload(random, &pool);
            if random.one_in(20) {
                payload = generate::payload(random, &pool);
            }
            // All labels of a sender from whom frames come, so that what is learned in between is meant.
            let settings = generate::good_settings(random, &pool);
            let mut ingress = u32::from(pool.nicknames[0]);
            if random.one_in(2) {
                payload = vec![0, 0, 6, 0];
            }
            let mut table = generate::table(random, &pool);
            table.truncate(12 * RECORD);
            if let Some(nickname) = learns_from(random, &pool, &settings) {
                ingress = nickname;
            }
            let n = (table.len() / RECORD) as u64;
            let mut whole = table.clone();
            let flushed = compare::flush(random, ingress, &payload, &mut whole);
            let (mut slot, mut sum, mut fresh) = (0, 0, Vec::new());
            loop {
                let k = random.below(6);
                let before = table.clone();
                let word = compare::flush_portion(random, ingress, &payload, slot, k, &mut table);
                tally.word(word);
                if word & 0xFF == 64 {
                    slot = next(word);
                    sum += cleared(word);
                    for at in &fresh {
                        let place = *at as usize * RECORD..(*at as usize + 1) * RECORD;
                        if before[place.clone()] != table[place] {
                            tally.situation("learned into a slot to come, and cleared there");
                        }
                    }
                } else if word != 24 || slot >= n {
                    break;
                }
                for _ in 0..random.length(0, 3) {
                    let frame = generate::good_frame(random, &pool, &settings).bytes();
                    let before = table.clone();
                    compare::receive(random, &settings, &frame, &mut table, &mut [0; 9216]);
                    let changed = (0..n).find(|at| {
                        let place = *at as usize * RECORD..(*at as usize + 1) * RECORD;
                        reference::read(&before[place.clone()]) == Record::Free
                            && before[place.clone()] != table[place]
                    });
                    if let Some(at) = changed {
                        fresh.push(at);
                        if at < slot {
                            tally.situation("learned into a passed slot, which stays");
                        }
                    }
                }
            }
            if flushed & 0xFF == 67 && slot == n {
                tally.situation(if sum == cleared(flushed) {
                    "the sum is the whole flush's"
                } else {
                    "the sum is not the whole flush's"
                });
            }
        },
    );
}

#[test]
fn portions_touch_only_what_they_are_lent() {
    let mut both = Pages::both();
    run::cases(
        "portions_touch_only_what_they_are_lent",
        4,
        run::PORTION,
        &[],
        |random, tally| {
            let pool = Pool::new(random);
            let ingress = generate::ingress(random, &pool);
            let payload = generate::payload(random, &pool);
            let mut table = generate::table(random, &pool);
            while table.len() > 40 * RECORD && !random.one_in(50) {
                table = generate::table(random, &pool);
            }
            for _ in 0..4 {
                let (slot, k) = generate::portion(random, table.len());
                for pages in &mut both {
                    let mut table = table.clone();
                    let word =
                        compare::flush_portion(pages, ingress, &payload, slot, k, &mut table);
                    tally.word(word);
                }
            }
        },
    );
}

/// The fuzz target of portions, without libFuzzer, on random inputs.
#[test]
fn the_fuzz_target_of_portions_finds_nothing_on_random_inputs() {
    let mut random = run::random("the_fuzz_target_of_portions_finds_nothing_on_random_inputs");
    let root = Path::new(env!("CARGO_MANIFEST_DIR")).join("..");
    let folder = Path::new(env!("CARGO_TARGET_TMPDIR")).join("fuzz_portions");
    let _ = fs::remove_dir_all(&folder);
    fs::create_dir_all(&folder).expect("a folder");
    let program = folder.join("target");
    let compiled = Command::new("cc")
        .current_dir(&root)
        .args([
            "-std=c99",
            "-pedantic",
            "-O2",
            "-Wall",
            "-Wextra",
            "-Werror",
        ])
        .args(["-I", "include", "fuzz/portions.c", "fuzz/main.c"])
        .args([env!("SHINGLEBAR_ARCHIVE"), "-o"])
        .arg(&program)
        .output()
        .expect("cc can be run");
    assert!(
        compiled.status.success(),
        "{}",
        String::from_utf8_lossy(&compiled.stderr)
    );
    let mut names = Vec::new();
    for number in 0..400 {
        let pool = Pool::new(&mut random);
        let mut table = generate::table(&mut random, &pool);
        table.truncate(40 * RECORD);
        let (slot, k) = generate::portion(&mut random, table.len());
        let input = [
            &generate::ingress(&mut random, &pool).to_be_bytes()[..],
            &slot.to_be_bytes(),
            &k.to_be_bytes(),
            &(table.len() as u16).to_be_bytes(),
            &table,
            &generate::payload(&mut random, &pool),
        ]
        .concat();
        let name = format!("{number}");
        fs::write(folder.join(&name), input).expect("an input");
        names.push(name);
    }
    let output = Command::new(&program)
        .current_dir(&folder)
        .args(&names)
        .output()
        .expect("the fuzz target runs");
    let told = String::from_utf8_lossy(&output.stderr);
    assert!(output.status.success(), "{}: {told}", output.status);
}
