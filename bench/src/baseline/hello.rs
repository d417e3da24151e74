//! Reading a Smart-Hello: one walk judges and counts, a second writes each kind at its own place. A number is taken by a load of eight
//! bytes that ends with it: what stands before it is masked, and always there, since TLVs have heads.

use super::refusal;

const WRITTEN: u64 = 64;
const NUMBER: usize = 8;

const CAPABILITY: u8 = 242;
const CAPABILITY_HEAD: usize = 5;
const GENINFO: u8 = 251;
const GENINFO_HEAD: usize = 3;
const NICKNAME: u8 = 6;
const TREES: u8 = 8;
const PARAMETERS: u8 = 22;
const SMART_MAC: u8 = 23;

/// A number's bytes as they lie in the area: its last one is the high byte of a little-endian word.
const ONE: u64 = 0xFF << 56;
const TWO: u64 = 0xFFFF << 48;
const SIX: u64 = !0xFFFF;

/// How many there are of each kind, and of what they hold.
#[derive(Default)]
struct Counts {
    parameters: Option<*const u8>,
    /// Where the first TLV that can have sub-TLVs starts, and the last one ends.
    used: Option<(*const u8, *const u8)>,
    nicknames: usize,
    records: usize,
    trees: usize,
    roots: usize,
    macs: usize,
    addresses: usize,
}

/// Each piece from a place to an end, until one is not good.
#[inline(always)]
unsafe fn judge(
    mut at: *const u8,
    end: *const u8,
    mut good: impl FnMut(u8, *const u8, usize) -> bool,
) -> bool {
    while at != end {
        let left = end.offset_from(at) as usize;
        if left < 2 {
            return false;
        }
        let (kind, length) = (*at, usize::from(*at.add(1)));
        // the next one's place does not wait for the load
        if length == 0 {
            if !good(kind, at.add(2), 0) {
                return false;
            }
            at = at.add(2);
            continue;
        }
        if length > left - 2 || !good(kind, at.add(2), length) {
            return false;
        }
        at = at.add(2 + length);
    }
    true
}

/// Each piece from a place to an end, where they are known to be good.
#[inline(always)]
unsafe fn each(mut at: *const u8, end: *const u8, mut visit: impl FnMut(u8, *const u8, usize)) {
    while at != end {
        let length = usize::from(*at.add(1));
        visit(*at, at.add(2), length);
        at = at.add(2 + length);
    }
}

/// The bytes in front of the APPsub-TLVs.
#[inline(always)]
unsafe fn head(value: *const u8) -> usize {
    let flags = usize::from(*value);
    GENINFO_HEAD + (flags & 4) + 2 * (flags & 8)
}

/// Whether the application is 1.
#[inline(always)]
unsafe fn is_ours(value: *const u8) -> bool {
    value.add(1).cast::<u16>().read_unaligned() == 1u16.to_be()
}

#[inline(always)]
unsafe fn judge_capability(counts: &mut Counts, value: *const u8, length: usize) -> bool {
    if length < CAPABILITY_HEAD {
        return false;
    }
    judge(
        value.add(CAPABILITY_HEAD),
        value.add(length),
        |kind, _, length| match kind {
            NICKNAME => {
                counts.nicknames += 1;
                counts.records += length / 5;
                length % 5 == 0
            }
            TREES => {
                counts.trees += 1;
                counts.roots += (length / 2).wrapping_sub(1);
                length % 2 == 0 && length != 0
            }
            _ => true,
        },
    )
}

#[inline(always)]
unsafe fn judge_geninfo(counts: &mut Counts, value: *const u8, length: usize) -> bool {
    if length < GENINFO_HEAD {
        return false;
    }
    if !is_ours(value) {
        return true;
    }
    if length < head(value) {
        return false;
    }
    judge(
        value.add(head(value)),
        value.add(length),
        |kind, value, length| match kind {
            SMART_MAC => {
                counts.macs += 1;
                counts.addresses += length.wrapping_sub(4) / 6;
                length >= 4 && (length - 4) % 6 == 0
            }
            PARAMETERS => length == 4 && counts.parameters.replace(value).is_none(),
            _ => true,
        },
    )
}

/// Writes numbers at a place that moves on; all were counted before.
struct Pen(*mut u8);

impl Pen {
    #[inline(always)]
    unsafe fn put(&mut self, number: u64) {
        self.lay(number.to_be());
    }

    #[inline(always)]
    unsafe fn lay(&mut self, bytes: u64) {
        self.0.cast::<u64>().write_unaligned(bytes);
        self.0 = self.0.add(NUMBER);
    }

    /// The number that ends before a place.
    #[inline(always)]
    unsafe fn take(&mut self, end: *const u8, mask: u64) {
        self.lay(end.sub(NUMBER).cast::<u64>().read_unaligned() & mask);
    }

    #[inline(always)]
    unsafe fn records(&mut self, value: *const u8, length: usize) {
        self.put(length as u64 / 5);
        let end = value.add(length);
        let mut at = value;
        while at != end {
            self.take(at.add(1), ONE);
            self.take(at.add(3), TWO);
            self.take(at.add(5), TWO);
            at = at.add(5);
        }
    }

    #[inline(always)]
    unsafe fn trees(&mut self, value: *const u8, length: usize) {
        self.take(value.add(2), TWO);
        self.put(length as u64 / 2 - 1);
        for at in (2..length).step_by(2) {
            self.take(value.add(at + 2), TWO);
        }
    }

    #[inline(always)]
    unsafe fn addresses(&mut self, value: *const u8, length: usize) {
        let word = u64::from(value.cast::<u32>().read_unaligned().to_be());
        let fine = word >> 31;
        self.put(fine);
        self.put(word >> 30 & 1);
        self.put(word & (0xFFF | 0xFF_F000 * fine));
        self.put((length as u64 - 4) / 6);
        for at in (4..length).step_by(6) {
            self.take(value.add(at + 6), SIX);
        }
    }
}

#[inline(never)]
pub unsafe extern "C" fn hello_read(
    payload: *const u8,
    payload_len: usize,
    contents: *mut u8,
    contents_len: usize,
) -> u64 {
    let end = payload.add(payload_len);
    let mut counts = Counts::default();
    let good = judge(payload, end, |kind, value, length| {
        let good = match kind {
            CAPABILITY => judge_capability(&mut counts, value, length),
            GENINFO => judge_geninfo(&mut counts, value, length),
            _ => return true,
        };
        let first = counts.used.map_or(value.sub(2), |(first, _)| first);
        counts.used = Some((first, value.add(length)));
        good
    });
    if !good {
        return refusal::HELLO;
    }
    let Some(parameters) = counts.parameters else {
        return refusal::PARAMETERS_MISSING;
    };
    let nicknames = 1 + counts.nicknames + 3 * counts.records;
    let trees = 1 + 2 * counts.trees + counts.roots;
    let macs = 1 + 4 * counts.macs + counts.addresses;
    let length = NUMBER * (3 + nicknames + trees + macs);
    if contents_len < length {
        return refusal::OUTPUT_LENGTH;
    }
    let mut first = Pen(contents);
    first.put(1);
    first.take(parameters.add(2), TWO);
    first.take(parameters.add(4), TWO);
    let mut second = Pen(first.0.add(NUMBER * nicknames));
    let mut third = Pen(second.0.add(NUMBER * trees));
    first.put(counts.nicknames as u64);
    second.put(counts.trees as u64);
    third.put(counts.macs as u64);
    let (start, end) = counts.used.unwrap_or((end, end));
    each(start, end, |kind, value, length| match kind {
        CAPABILITY => each(
            value.add(CAPABILITY_HEAD),
            value.add(length),
            |kind, value, length| match kind {
                NICKNAME => first.records(value, length),
                TREES => second.trees(value, length),
                _ => {}
            },
        ),
        GENINFO if is_ours(value) => each(
            value.add(head(value)),
            value.add(length),
            |kind, value, length| {
                if kind == SMART_MAC {
                    third.addresses(value, length);
                }
            },
        ),
        _ => {}
    });
    WRITTEN | (length as u64) << 8
}
