//! The VLAN-only model (document 02, 2026-07): compared through the C boundary, and beside the full one.

use std::fs;
use std::path::Path;
use std::process::Command;

use shinglebar_tests::boundary;
use shinglebar_tests::compare;
use shinglebar_tests::generate::{self, Pool};
use shinglebar_tests::pages::Pages;
use shinglebar_tests::random::Random;
use shinglebar_tests::reference::{self, Entry, Label, Record, RECORD};
use shinglebar_tests::run;

#[test]
fn the_small_model_answers_and_clears_as_the_paper_says() {
    run::cases(
        "the_small_model_answers_and_clears_as_the_paper_says",
        1,
        run::FLUSH,
        &[
            "refused by the full model alone",
            "the same as the full model",
            "clears more than the full model",
            "clears less than the full model",
            "padded",
        ],
        |random, tally| {
            let pool = Pool::new(random);
            let mut payload = generate::payload(random, &pool);
            if random.one_in(4) {
                tally.situation("padded");
                payload.extend(vec![0; random.length(1, 9)]);
            }
            if random.one_in(4) {
                // a broken length of a type that the small model skips
                payload = generate::good_payload(random, &pool);
                payload.extend([random.pick(&[3, 4, 5, 7, 8]), 1, random.below(256) as u8]);
            }
            let table = generate::table(random, &pool);
            let ingress = generate::ingress(random, &pool);
            let (mut small, mut full) = (table.clone(), table.clone());
            let word = compare::flush_vlan_only(random, ingress, &payload, &mut small);
            let other = compare::flush(random, ingress, &payload, &mut full);
            tally.word(word);
            tally.situation(match (word & 0xFF, other & 0xFF) {
                (67, 15) => "refused by the full model alone",
                (67, 67) if word == other => "the same as the full model",
                (67, 67) if word > other => "clears more than the full model",
                (67, 67) => "clears less than the full model",
                (small, full) => {
                    assert_eq!(small, full, "refused by the small model alone");
                    "refused by both"
                }
            });
            for length in generate::cuts(random, payload.len()) {
                let mut after = table.clone();
                let cut = &payload[..length];
                let word = compare::flush_vlan_only(random, ingress, cut, &mut after);
                tally.word(word);
                if word == 15 {
                    assert_eq!(after, table);
                }
            }
        },
    );
}

/// A message that the full model accepts, with its ingress nickname.
struct Message {
    ingress: u32,
    payload: Vec<u8>,
}

/// The types of the TLVs of a good payload; none in the form with VLAN blocks.
fn types(payload: &[u8]) -> Vec<u8> {
    let mut rest = &payload[1 + 2 * usize::from(payload[0])..];
    let mut types = Vec::new();
    if rest[0] > 0 {
        return types;
    }
    rest = &rest[1..];
    while let [kind, length, behind @ ..] = rest {
        types.push(*kind);
        rest = &behind[usize::from(*length)..];
    }
    types
}

fn messages(random: &mut Random, pool: &Pool) -> Vec<Message> {
    let macs = random.one_in(2);
    let mut messages = Vec::new();
    for _ in 0..random.length(1, 6) {
        let mut payload = generate::payload(random, pool);
        match random.below(4) {
            // an empty TLV of MACs behind, which gathers none
            0 => payload.extend([random.pick(&[7, 8]), 0]),
            1 => payload.extend(vec![0; random.length(0, 5)]),
            // all labels of the sender, and one MAC
            2 if macs => {
                let mac = random.pick(&pool.macs).to_be_bytes();
                payload = [&[0, 0, 6, 0, 7, 6], &mac[2..]].concat();
            }
            _ => {}
        }
        let ingress = generate::ingress(random, pool);
        if reference::flush(ingress, &payload, &mut [0; RECORD]) & 0xFF != 67 {
            continue;
        }
        if macs || !types(&payload).iter().any(|kind| matches!(kind, 7 | 8)) {
            messages.push(Message { ingress, payload });
        }
    }
    messages
}

/// The VLAN record of a slot, and whether it is learned.
fn vlan_record(slot: &[u8]) -> Option<(bool, Entry)> {
    let (learned, entry) = match reference::read(slot) {
        Record::Learned(entry) => (true, entry),
        Record::Configured(entry) => (false, entry),
        Record::Free | Record::Spoilt => return None,
    };
    matches!(entry.label, Label::Vlan(_)).then_some((learned, entry))
}

/// Whether a flush of this message, with every MAC or with those that it names, clears the record: the
/// second implementation is asked with the record alone.
fn clears(message: &Message, slot: &[u8], small: bool) -> bool {
    let mut table = slot.to_vec();
    let flush = match small {
        true => reference::flush_vlan_only,
        false => reference::flush,
    };
    flush(message.ingress, &message.payload, &mut table);
    table != slot
}

/// The four points of the guarantee, on the bytes of both compiled models.
#[test]
fn the_two_models_differ_only_as_promised() {
    const SAME: &str = "no TLV of MACs: a VLAN record ends equal";
    const BOTH: &str = "cleared by both";
    const MORE: &str = "cleared by the small model alone, with a witness";
    const KEPT: &str = "kept by both";
    const CONFIGURED: &str = "configured, kept by both";
    const EMPTY: &str = "a message with a TLV of MACs";
    run::cases(
        "the_two_models_differ_only_as_promised",
        1,
        &[],
        &[
            SAME,
            BOTH,
            MORE,
            KEPT,
            CONFIGURED,
            EMPTY,
            "a fine-grained record differs",
        ],
        |random, tally| {
            let pool = Pool::new(random);
            let mut table = generate::good_length_table(random, &pool);
            table.truncate(24 * RECORD);
            let messages = messages(random, &pool);
            let (mut full, mut small) = (table.clone(), table.clone());
            let mut mac_tlv = false;
            for Message { ingress, payload } in &messages {
                let word = boundary::flush(random, *ingress, payload, &mut full);
                assert_eq!(word & 0xFF, 67);
                let word = boundary::flush_vlan_only(random, *ingress, payload, &mut small);
                assert_eq!(
                    word & 0xFF,
                    67,
                    "the small model accepts what the full one does"
                );
                if types(payload).iter().any(|kind| matches!(kind, 7 | 8)) {
                    mac_tlv = true;
                    tally.situation(EMPTY);
                }
            }
            let slots = table.chunks_exact(RECORD).zip(full.chunks_exact(RECORD));
            for ((given, full), small) in slots.zip(small.chunks_exact(RECORD)) {
                let Some((learned, _)) = vlan_record(given) else {
                    if full != small {
                        tally.situation("a fine-grained record differs");
                    }
                    continue;
                };
                let free = [0; RECORD];
                if !mac_tlv {
                    assert_eq!(full, small, "without TLVs of MACs the two end equal");
                    tally.situation(SAME);
                }
                if full == free {
                    assert_eq!(
                        small, free,
                        "kept by the small model, cleared by the full one"
                    );
                    tally.situation(BOTH);
                } else if small == free {
                    assert!(learned && full == given);
                    let witness = |message: &&Message| {
                        clears(message, given, true) && !clears(message, given, false)
                    };
                    assert!(
                        messages.iter().any(|message| witness(&message)),
                        "no witness"
                    );
                    tally.situation(MORE);
                } else {
                    assert!(full == given && small == given);
                    tally.situation(if learned { KEPT } else { CONFIGURED });
                }
            }
        },
    );
}

/// What is not promised: a message that the full model refuses and the small one carries out.
#[test]
fn a_message_that_is_corrupt_to_the_full_model_alone_is_carried_out_by_the_small_one() {
    let mut random = run::random("a_message_that_is_corrupt_to_the_full_model_alone");
    let entry = Entry {
        label: Label::Vlan(10),
        mac: 0x0200_0000_0001,
        nickname: 0x1234,
        confidence: 20,
        seconds: 300,
        multihomed: false,
    };
    let known = reference::write(true, &entry).to_vec();
    for kind in [3, 4, 7, 8] {
        let payload = [0x00, 0x00, 0x06, 0x00, kind, 0x01, 0x00];
        let mut table = known.clone();
        assert_eq!(
            compare::flush(&mut random, 0x1234, &payload, &mut table),
            15
        );
        assert_eq!(table, known);
        let word = compare::flush_vlan_only(&mut random, 0x1234, &payload, &mut table);
        assert_eq!(word, 67 | 1 << 8);
        assert!(table.iter().all(|byte| *byte == 0));
    }
}

#[test]
fn the_small_model_touches_only_what_it_is_lent() {
    let mut both = Pages::both();
    run::cases(
        "the_small_model_touches_only_what_it_is_lent",
        4,
        run::FLUSH,
        &[],
        |random, tally| {
            let pool = Pool::new(random);
            let ingress = generate::ingress(random, &pool);
            let payload = generate::payload(random, &pool);
            let mut table = generate::table(random, &pool);
            while table.len() > 40 * RECORD && !random.one_in(50) {
                table = generate::table(random, &pool);
            }
            for pages in &mut both {
                let mut table = table.clone();
                tally.word(compare::flush_vlan_only(
                    pages, ingress, &payload, &mut table,
                ));
            }
        },
    );
}

/// The fuzz target of the models, without libFuzzer, on random inputs.
#[test]
fn the_fuzz_target_of_the_models_finds_nothing_on_random_inputs() {
    let mut random = run::random("the_fuzz_target_of_the_models_finds_nothing_on_random_inputs");
    let root = Path::new(env!("CARGO_MANIFEST_DIR")).join("..");
    let folder = Path::new(env!("CARGO_TARGET_TMPDIR")).join("fuzz_models");
    let _ = fs::remove_dir_all(&folder);
    fs::create_dir_all(&folder).expect("a folder");
    let program = folder.join("target");
    let compiled = Command::new("cc")
        .current_dir(&root)
        .args([
            "-std=c99",
            "-pedantic",
            "-O2",
            "-Wall",
            "-Wextra",
            "-Werror",
        ])
        .args(["-I", "include", "fuzz/models.c", "fuzz/main.c"])
        .args([env!("SHINGLEBAR_ARCHIVE"), "-o"])
        .arg(&program)
        .output()
        .expect("cc can be run");
    let told = String::from_utf8_lossy(&compiled.stderr);
    assert!(compiled.status.success(), "{told}");
    let mut names = Vec::new();
    for number in 0..400 {
        let pool = Pool::new(&mut random);
        let mut table = generate::table(&mut random, &pool);
        table.truncate(40 * RECORD);
        let input = [
            &generate::ingress(&mut random, &pool).to_be_bytes()[..],
            &(table.len() as u16).to_be_bytes(),
            &table,
            &generate::payload(&mut random, &pool),
        ]
        .concat();
        let name = format!("{number}");
        fs::write(folder.join(&name), input).expect("an input");
        names.push(name);
    }
    let output = Command::new(&program)
        .current_dir(&folder)
        .args(&names)
        .output()
        .expect("the fuzz target runs");
    let told = String::from_utf8_lossy(&output.stderr);
    assert!(output.status.success(), "{}: {told}", output.status);
}
