//! Learning with two homes, and older tables widened: document 02, 2026-12.

use super::answer::{word, Learning, Written};
use super::record::{read, write, Entry, Record, OLD_RECORD, RECORD, SLOTS};
use super::refusal::Refusal;

/// The slots whose record passes, the lowest first.
fn slots_with(table: &[u8], passes: impl Fn(&Record) -> bool) -> Vec<usize> {
    let records = table.chunks_exact(RECORD).map(read).enumerate();
    records
        .filter(|(_, record)| passes(record))
        .map(|(slot, _)| slot)
        .collect()
}

fn slot(table: &mut [u8], number: usize) -> &mut [u8] {
    &mut table[number * RECORD..][..RECORD]
}

/// The frame's "label and MAC" are those of the record.
fn is_pair(there: &Entry, entry: &Entry) -> bool {
    there.label == entry.label && there.mac == entry.mac
}

/// The entry holds what is learned: the label and MAC, the nickname, confidence and seconds to write, and whether the frame is marked.
pub fn learn(table: &mut [u8], entry: &Entry) -> Learning {
    // "If a configured record of the frame's label and MAC exists, nothing changes and the answer is kept."
    let configured =
        |record: &Record| matches!(record, Record::Configured(there) if is_pair(there, entry));
    if !slots_with(table, configured).is_empty() {
        return Learning::Kept;
    }
    if entry.multihomed {
        learn_marked(table, entry)
    } else {
        learn_unmarked(table, entry)
    }
}

fn learn_marked(table: &mut [u8], entry: &Entry) -> Learning {
    // "Otherwise a marked frame is judged by confidence against the lowest unmarked learned record of that pair, and marks it when it
    // overwrites it"
    let unmarked = |record: &Record| matches!(record, Record::Learned(there) if is_pair(there, entry) && !there.multihomed);
    if let Some(lowest) = slots_with(table, unmarked).first() {
        return judge(table, *lowest, entry);
    }
    // "with none, against the lowest marked record of the pair with the same nickname"
    let marked_here = |record: &Record| {
        matches!(record, Record::Learned(there)
            if is_pair(there, entry) && there.multihomed && there.nickname == entry.nickname)
    };
    if let Some(lowest) = slots_with(table, marked_here).first() {
        return judge(table, *lowest, entry);
    }
    // "with none of those, it fills a free slot, marked"
    fill_free(table, entry)
}

fn learn_unmarked(table: &mut [u8], entry: &Entry) -> Learning {
    let learned =
        |record: &Record| matches!(record, Record::Learned(there) if is_pair(there, entry));
    match slots_with(table, learned).split_first() {
        // "An unmarked frame is judged against the pair's lowest record; if that is overwritten it becomes unmarked and the pair's other
        // learned records are cleared, and if it is kept, so are all"
        Some((&lowest, others)) => {
            let learning = judge(table, lowest, entry);
            if learning == Learning::Refreshed {
                for &other in others {
                    slot(table, other).fill(0);
                }
            }
            learning
        }
        // "with no record it fills a free slot"
        None => fill_free(table, entry),
    }
}

/// "Learned with higher confidence: kept. Learned otherwise: nickname, confidence and seconds overwritten." (document 01) The entry's own
/// mark is written with them.
fn judge(table: &mut [u8], number: usize, entry: &Entry) -> Learning {
    match read(slot(table, number)) {
        Record::Learned(there) if there.confidence > entry.confidence => Learning::Kept,
        _ => {
            slot(table, number).copy_from_slice(&write(true, entry));
            Learning::Refreshed
        }
    }
}

/// "the lowest free slot is filled. No free slot: not learned, answer "full"" (document 01)
fn fill_free(table: &mut [u8], entry: &Entry) -> Learning {
    match slots_with(table, |record| *record == Record::Free).first() {
        Some(lowest) => {
            slot(table, *lowest).copy_from_slice(&write(true, entry));
            Learning::Learned
        }
        None => Learning::Full,
    }
}

/// "An older table is widened by a call (2 by the old lengths, then 16) that copies each record and adds a zero byte."
pub fn widen(old: &[u8], out: &mut [u8]) -> u64 {
    word(widened(old, out))
}

fn widened(old: &[u8], out: &mut [u8]) -> Result<Written, Refusal> {
    // "table length 0, not a multiple of 14, or over 57,344" (document 01)
    if old.is_empty() || !old.len().is_multiple_of(OLD_RECORD) || old.len() > 57_344 {
        return Err(Refusal::TableLength);
    }
    let records = old.len() / OLD_RECORD;
    let Some(wide) = out.get_mut(..records * RECORD) else {
        return Err(Refusal::OutputLength);
    };
    for (to, from) in wide
        .chunks_exact_mut(RECORD)
        .zip(old.chunks_exact(OLD_RECORD))
    {
        let (fields, added) = to.split_at_mut(OLD_RECORD);
        fields.copy_from_slice(from);
        added.fill(0);
    }
    debug_assert!(records <= SLOTS);
    Ok(Written(wide.len()))
}

/// "A table with, among its learned and configured records, no two equal (label, MAC, nickname) triples, and no unmarked learned record
/// beside another of its label and MAC".
pub fn homes_are_apart(table: &[u8]) -> bool {
    let held = |record| match record {
        Record::Learned(entry) => Some((entry, !entry.multihomed)),
        Record::Configured(entry) => Some((entry, false)),
        Record::Free | Record::Spoilt => None,
    };
    let mut records: Vec<_> = table
        .chunks_exact(RECORD)
        .filter_map(|bytes| held(read(bytes)))
        .map(|(entry, alone)| {
            let pair = (entry.label.kind(), entry.label.number(), entry.mac);
            (pair, entry.nickname, alone)
        })
        .collect();
    records.sort_unstable();
    // Records of one pair stand side by side, those of one nickname among them too.
    records.windows(2).all(|two| {
        let ((pair, nickname, alone), (next, next_nickname, next_alone)) = (two[0], two[1]);
        pair != next || (nickname != next_nickname && !alone && !next_alone)
    })
}
