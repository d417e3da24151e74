//! The default life (document 02, 2026-10): learning seconds 0 mean 1,200, and 300 the old life. Through the C boundary.

use shinglebar_tests::boundary;
use shinglebar_tests::captures;
use shinglebar_tests::random::Random;
use shinglebar_tests::reference::{self, write, Entry, Label, Record, Settings, RECORD};

/// The word of a delivered frame of VLAN 10 whose native form has 60 bytes, with what became of its source.
fn delivered(learning: u64) -> u64 {
    65 | 60 << 8 | learning << 24 | 10 << 40
}

const LEARNED: u64 = 0;
const REFRESHED: u64 = 1;

/// Reads the first frame of the worked example.
fn receive(seconds: u32, table: &mut [u8]) -> u64 {
    let settings = Settings {
        seconds,
        ..captures::PORT
    };
    let (_, hall) = captures::all().swap_remove(0);
    boundary::receive(
        &mut Random::new(1),
        &settings,
        &hall[0],
        table,
        &mut [0; 64],
    )
}

fn age(seconds: u16, table: &mut [u8]) {
    assert_eq!(boundary::age(&mut Random::new(1), seconds, table), 64);
}

/// The 13 bits in front of a record's last byte.
fn seconds_of(record: &[u8]) -> u16 {
    u16::from_be_bytes([record[RECORD - 3], record[RECORD - 2]]) & 0x1FFF
}

fn is_free(record: &[u8]) -> bool {
    record.iter().all(|byte| *byte == 0)
}

#[test]
fn zero_seconds_are_1200_and_300_are_300() {
    for (passed, life) in [(0, 1200), (300, 300), (10, 10), (1200, 1200), (8191, 8191)] {
        let mut table = [0; RECORD];
        assert_eq!(receive(passed, &mut table), delivered(LEARNED));
        assert_eq!(seconds_of(&table), life, "{passed} passed");

        let mut aged = table;
        age(life - 1, &mut aged);
        assert_eq!(seconds_of(&aged), 1, "{passed} passed");
        assert!(!is_free(&aged), "{passed} passed");
        age(life, &mut table);
        assert!(is_free(&table), "{passed} passed");
    }
}

#[test]
fn a_record_learned_with_0_is_there_after_1199_seconds_and_free_after_1200() {
    let mut table = [0; RECORD];
    assert_eq!(receive(0, &mut table), delivered(LEARNED));
    let mut aged = table;
    age(1199, &mut aged);
    assert_eq!(seconds_of(&aged), 1);
    age(1200, &mut table);
    assert!(is_free(&table));
}

/// "Records already in a table keep their seconds."
#[test]
fn a_table_from_before_keeps_its_seconds_until_it_is_aged_or_refreshed() {
    let entry = |vlan, mac, seconds| Entry {
        label: Label::vlan(vlan).expect("a VLAN"),
        mac,
        nickname: 0x1234,
        confidence: 20,
        seconds,
        multihomed: false,
    };
    // the source of the frame and another station, with what is left of 300 seconds; and a configured record
    let kept = [
        write(true, &entry(10, 0x0200_0000_0001, 250)),
        write(true, &entry(10, 0x0200_0000_0002, 300)),
        write(false, &entry(11, 0x0200_0000_0003, 300)),
    ];
    let mut table = kept.concat();

    // read: looked up as they are
    let found = boundary::lookup(&mut Random::new(1), 0, 10, 0x0200_0000_0002, &table);
    assert_eq!(found, 64 | 0x1234 << 8);
    assert_eq!(boundary::spoilt(&mut Random::new(1), &table), 65);
    assert_eq!(table, kept.concat());

    // aged: by what they have
    age(100, &mut table);
    let left: Vec<u16> = table.chunks(RECORD).map(seconds_of).collect();
    assert_eq!(left, [150, 200, 300]);

    // refreshed: the new life for the source alone
    assert_eq!(receive(0, &mut table), delivered(REFRESHED));
    let left: Vec<u16> = table.chunks(RECORD).map(seconds_of).collect();
    assert_eq!(left, [1200, 200, 300]);

    age(200, &mut table);
    let left: Vec<u16> = table.chunks(RECORD).map(seconds_of).collect();
    assert_eq!(left, [1000, 0, 300]);
    assert!(is_free(&table[RECORD..2 * RECORD]));
    assert!(matches!(
        reference::read(&table[2 * RECORD..]),
        Record::Configured(_)
    ));
}

/// The second implementation with the old default, which the test of lists uses: 0 is 300 there.
#[test]
fn the_old_default_of_the_second_implementation_is_300() {
    let settings = captures::PORT;
    assert_eq!(settings.seconds, 0);
    let (_, hall) = captures::all().swap_remove(0);
    for (life, seconds) in [(reference::OLD_LIFE, 300), (reference::DEFAULT_LIFE, 1200)] {
        let mut table = [0; RECORD];
        let word =
            reference::receive_with(life, &settings, &[], &hall[0], &mut table, &mut [0; 64]);
        assert_eq!(word, delivered(LEARNED));
        assert_eq!(seconds_of(&table), seconds);
    }
}
