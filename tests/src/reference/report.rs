//! The morning report: document 02, 2026-14.

use std::collections::BTreeMap;

use super::answer::{word, Written};
use super::record::Record;
use super::refusal::Refusal;
use super::table::{check_length, slots};

/// The learned and the configured records of a nickname.
#[derive(Default)]
struct Counts {
    learned: usize,
    configured: usize,
}

/// "writes, for each nickname with learned or configured records, in rising order, one line: nickname in four
/// capital hexadecimal digits, learned and configured counts in decimal. Then free and spoilt."
pub fn reported(table: &[u8]) -> String {
    // "A bad length gives the single line "refused 2"."
    if check_length(table).is_err() {
        return "refused 2\n".to_owned();
    }
    let mut nicknames: BTreeMap<u16, Counts> = BTreeMap::new();
    let (mut free, mut spoilt) = (0, 0);
    for record in slots(table) {
        match record {
            Record::Free => free += 1,
            Record::Spoilt => spoilt += 1,
            Record::Learned(entry) => nicknames.entry(entry.nickname).or_default().learned += 1,
            Record::Configured(entry) => {
                nicknames.entry(entry.nickname).or_default().configured += 1;
            }
        }
    }
    let mut text = String::new();
    for (nickname, counts) in nicknames {
        let Counts {
            learned,
            configured,
        } = counts;
        text += &format!("{nickname:04X} {learned} {configured}\n");
    }
    text + &format!("free {free}\nspoilt {spoilt}\n")
}

/// The call: 16. "Here and later a call writes from the start of its output area; the rest stays."
pub fn report(table: &[u8], out: &mut [u8]) -> u64 {
    let text = reported(table);
    let outcome = match out.get_mut(..text.len()) {
        Some(area) => {
            area.copy_from_slice(text.as_bytes());
            Ok(Written(text.len()))
        }
        None => Err(Refusal::OutputLength),
    };
    word(outcome)
}
