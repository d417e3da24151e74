//! The address table: lookup, ageing, the lowest spoilt slot. Learning stands in homes.rs.

use super::answer::{word, Aged, Found, FreeSlot, SpoiltSlot};
use super::record::{read, write, Entry, Label, Record, RECORD, TABLE};
use super::refusal::Refusal;

/// 2: "table length 0", and by document 02 "Document 01's lengths become multiples of 15 up to 61,440"
pub fn check_length(table: &[u8]) -> Result<(), Refusal> {
    if table.is_empty() || !table.len().is_multiple_of(RECORD) || table.len() > TABLE {
        Err(Refusal::TableLength)
    } else {
        Ok(())
    }
}

/// The slots of a table, counted from 0.
pub fn slots(table: &[u8]) -> impl Iterator<Item = Record> + '_ {
    table.chunks_exact(RECORD).map(read)
}

/// "Lookup gives the nickname in the lowest matching slot, or none. It takes any label and address;
/// values that no good record can hold find none."
pub fn lookup(kind: u32, label: u32, mac: u64, table: &[u8]) -> u64 {
    word(check_length(table).map(|()| {
        let label = match kind {
            0 => Label::vlan(label),
            1 => Label::fine(label),
            _ => None,
        };
        let nickname = label.and_then(|label| {
            // Spoilt records "match nothing".
            slots(table).find_map(|record| match record {
                Record::Learned(entry) | Record::Configured(entry)
                    if entry.label == label && entry.mac == mac =>
                {
                    Some(entry.nickname)
                }
                _ => None,
            })
        });
        Found(nickname)
    }))
}

/// "Ageing by s (0 to 65,535): learned records with seconds at most s become free, other learned
/// ones lose s."
pub fn age(seconds: u16, table: &mut [u8]) -> u64 {
    word(check_length(table).map(|()| {
        for slot in table.chunks_exact_mut(RECORD) {
            if let Record::Learned(entry) = read(slot) {
                if entry.seconds <= seconds {
                    slot.fill(0);
                } else {
                    let older = Entry {
                        seconds: entry.seconds - seconds,
                        ..entry
                    };
                    slot.copy_from_slice(&write(true, &older));
                }
            }
        }
        Aged
    }))
}

/// 2026-04: "gives the lowest free slot, or none exactly if none is free, and the number unpacked: the
/// slots with state 0 up to the one found, or all such". The state is the record's first two bits.
pub fn free_slot(table: &[u8]) -> u64 {
    word(check_length(table).map(|()| {
        let slot = slots(table).position(|record| record == Record::Free);
        let looked_at = slot.map_or(table.len() / RECORD, |slot| slot + 1);
        let unpacked = table
            .chunks_exact(RECORD)
            .take(looked_at)
            .filter(|bytes| bytes[0] >> 6 == 0)
            .count();
        FreeSlot { slot, unpacked }
    }))
}

/// "name its lowest spoilt slot (or none)"
pub fn spoilt(table: &[u8]) -> u64 {
    word(
        check_length(table)
            .map(|()| SpoiltSlot(slots(table).position(|record| record == Record::Spoilt))),
    )
}
