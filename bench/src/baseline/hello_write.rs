//! Writing a Smart-Hello: one pass judges the contents area and sizes the payload, a second writes. A number is judged by the bytes of it
//! that must be 0, of a whole list at once; one of fewer than eight bytes is stored as eight, the next one over it, and the last of a list
//! as it is, so that nothing is written behind the payload.

use super::refusal;

const WRITTEN: u64 = 64;
const NUMBER: usize = 8;
/// The most bytes of a TLV's value.
const MOST: usize = 255;

const CAPABILITY: u8 = 242;
const CAPABILITY_HEAD: usize = 5;
const GENINFO: u8 = 251;
const GENINFO_HEAD: usize = 3;
const NICKNAME: u8 = 6;
const TREES: u8 = 8;
const PARAMETERS: u8 = 22;
const SMART_MAC: u8 = 23;

const MOST_NICKNAMES: u64 = 49;
const MOST_TREES: u64 = 123;
const MOST_MACS: u64 = 41;

/// The bytes that are not of a number's field, as a little-endian word has them.
const OVER_ONE: u64 = !(0xFF << 56);
const OVER_TWO: u64 = !(0xFFFF << 48);
const OVER_SIX: u64 = 0xFFFF;

/// A number as it lies in the area.
#[inline(always)]
unsafe fn raw(at: *const u8, index: usize) -> u64 {
    at.add(NUMBER * index).cast::<u64>().read_unaligned()
}

#[inline(always)]
unsafe fn number(at: *const u8, index: usize) -> u64 {
    u64::from_be(raw(at, index))
}

/// The length of the payload, and the TLV that is open at its end: its type and the bytes of its value.
#[derive(Default)]
struct Size {
    length: usize,
    holder: u8,
    used: usize,
}

impl Size {
    #[inline(always)]
    fn add(&mut self, holder: u8, head: usize, value: usize) {
        let sub = 2 + value;
        if self.holder == holder && self.used + sub <= MOST {
            self.used += sub;
            self.length += sub;
        } else {
            self.holder = holder;
            self.used = head + sub;
            self.length += 2 + head + sub;
        }
    }
}

/// The numbers that are left, while they are judged.
struct Judge {
    at: *const u8,
    left: usize,
}

impl Judge {
    /// The next numbers; none where there are fewer.
    #[inline(always)]
    unsafe fn take(&mut self, count: usize) -> Option<*const u8> {
        if self.left < count {
            return None;
        }
        let at = self.at;
        self.left -= count;
        self.at = at.add(NUMBER * count);
        Some(at)
    }

    #[inline(always)]
    unsafe fn count(&mut self) -> Option<u64> {
        Some(number(self.take(1)?, 0))
    }

    /// So many numbers, whose bytes over the field are 0.
    #[inline(always)]
    unsafe fn list(&mut self, count: u64, most: u64, over: u64) -> Option<usize> {
        if count > most {
            return None;
        }
        let count = count as usize;
        let at = self.take(count)?;
        let mut all = 0;
        for index in 0..count {
            all |= raw(at, index);
        }
        (all & over == 0).then_some(count)
    }

    #[inline(always)]
    unsafe fn nicknames(&mut self, size: &mut Size) -> Option<()> {
        let count = self.count()?;
        if count > MOST_NICKNAMES {
            return None;
        }
        // the next one's place does not wait for the load
        if count == 0 {
            size.add(CAPABILITY, CAPABILITY_HEAD, 0);
            return Some(());
        }
        let count = count as usize;
        let at = self.take(3 * count)?;
        let (mut first, mut others) = (0, 0);
        for index in 0..count {
            first |= raw(at, 3 * index);
            others |= raw(at, 3 * index + 1) | raw(at, 3 * index + 2);
        }
        size.add(CAPABILITY, CAPABILITY_HEAD, 5 * count);
        (first & OVER_ONE | others & OVER_TWO == 0).then_some(())
    }

    #[inline(always)]
    unsafe fn trees(&mut self, size: &mut Size) -> Option<()> {
        let at = self.take(2)?;
        let count = self.list(number(at, 1), MOST_TREES, OVER_TWO)?;
        size.add(CAPABILITY, CAPABILITY_HEAD, 2 + 2 * count);
        (raw(at, 0) & OVER_TWO == 0).then_some(())
    }

    #[inline(always)]
    unsafe fn smart_mac(&mut self, size: &mut Size) -> Option<()> {
        let at = self.take(4)?;
        let (fine, multihomed) = (number(at, 0), number(at, 1));
        if fine > 1 || multihomed > 1 || number(at, 2) >> (12 + 12 * fine) != 0 {
            return None;
        }
        let count = self.list(number(at, 3), MOST_MACS, OVER_SIX)?;
        size.add(GENINFO, GENINFO_HEAD, 4 + 6 * count);
        Some(())
    }

    /// How many Smart-Parameters there are, and the size of the payload; none where the contents cannot be written.
    #[inline(always)]
    unsafe fn contents(&mut self) -> Option<(u64, Size)> {
        let mut size = Size::default();
        let parameters = self.count()?;
        if parameters > 1 {
            return None;
        }
        if parameters == 1 {
            self.list(2, 2, OVER_TWO)?;
            size.add(GENINFO, GENINFO_HEAD, 4);
        }
        for _ in 0..self.count()? {
            self.nicknames(&mut size)?;
        }
        for _ in 0..self.count()? {
            self.trees(&mut size)?;
        }
        for _ in 0..self.count()? {
            self.smart_mac(&mut size)?;
        }
        (self.left == 0).then_some((parameters, size))
    }
}

/// Writes sub-TLVs at a place that moves on; all were sized before.
struct Pen {
    at: *mut u8,
    open: *mut u8,
    holder: u8,
    used: usize,
}

impl Pen {
    /// The head of a sub-TLV, behind that of a TLV where none is open that takes it. Eight bytes have room: a sub-TLV of a GENINFO has six.
    /// A TLV gets its length when the next one is opened, and the last one at the end.
    #[inline(always)]
    unsafe fn sub(&mut self, holder: u8, head: usize, kind: u8, value: usize) {
        if self.holder != holder || self.used + 2 + value > MOST {
            *self.open.add(1) = self.used as u8;
            self.holder = holder;
            self.used = head;
            self.open = self.at;
            let application = if holder == GENINFO { 1 << 32 } else { 0 };
            let front = u64::from(holder) | application;
            self.at.cast::<u64>().write_unaligned(front.to_le());
            self.at = self.at.add(2 + head);
        }
        self.used += 2 + value;
        let front = u16::from(kind) | (value as u16) << 8;
        self.at.cast::<u16>().write_unaligned(front.to_le());
        self.at = self.at.add(2);
    }

    #[inline(always)]
    unsafe fn two(&mut self, raw: u64) {
        let bytes = (raw >> 48) as u16;
        self.at.cast::<u16>().write_unaligned(bytes);
        self.at = self.at.add(2);
    }

    /// Eight bytes, of which so many count.
    #[inline(always)]
    unsafe fn wide(&mut self, bytes: u64, width: usize) {
        self.at.cast::<u64>().write_unaligned(bytes);
        self.at = self.at.add(width);
    }

    /// Four bytes, and then the others of so many.
    #[inline(always)]
    unsafe fn exact(&mut self, bytes: u64, width: usize) {
        self.at.cast::<u32>().write_unaligned(bytes as u32);
        let last = self.at.add(width - 2).cast::<u16>();
        last.write_unaligned((bytes >> (8 * (width - 2))) as u16);
        self.at = self.at.add(width);
    }

    #[inline(always)]
    unsafe fn twos(&mut self, from: *const u8, count: usize) {
        for index in 0..count {
            let bytes = (raw(from, index) >> 48) as u16;
            self.at.add(2 * index).cast::<u16>().write_unaligned(bytes);
        }
        self.at = self.at.add(2 * count);
    }

    /// Records, one at least.
    #[inline(always)]
    unsafe fn records(&mut self, from: *const u8, count: usize) {
        let record = |index: usize| {
            let at = from.add(3 * NUMBER * index);
            raw(at, 0) >> 56 | raw(at, 1) >> 48 << 8 | raw(at, 2) >> 48 << 24
        };
        for index in 0..count - 1 {
            self.wide(record(index), 5);
        }
        self.exact(record(count - 1), 5);
    }

    #[inline(always)]
    unsafe fn addresses(&mut self, from: *const u8, count: usize) {
        if count == 0 {
            return;
        }
        for index in 0..count - 1 {
            self.wide(raw(from, index) >> 16, 6);
        }
        self.exact(raw(from, count - 1) >> 16, 6);
    }
}

#[inline(never)]
pub unsafe extern "C" fn hello_write(
    contents: *const u8,
    contents_len: usize,
    out: *mut u8,
    out_len: usize,
) -> u64 {
    if contents_len % NUMBER != 0 {
        return refusal::HELLO;
    }
    let mut judge = Judge {
        at: contents,
        left: contents_len / NUMBER,
    };
    let Some((parameters, size)) = judge.contents() else {
        return refusal::HELLO;
    };
    if parameters == 0 {
        return refusal::PARAMETERS_MISSING;
    }
    if out_len < size.length {
        return refusal::OUTPUT_LENGTH;
    }
    let mut pen = Pen {
        at: out,
        open: out,
        holder: 0,
        used: 0,
    };
    pen.sub(GENINFO, GENINFO_HEAD, PARAMETERS, 4);
    pen.two(raw(contents, 1));
    pen.two(raw(contents, 2));
    let mut at = contents.add(4 * NUMBER);
    for _ in 0..number(contents, 3) {
        let count = number(at, 0) as usize;
        at = at.add(NUMBER);
        if count == 0 {
            pen.sub(CAPABILITY, CAPABILITY_HEAD, NICKNAME, 0);
            continue;
        }
        pen.sub(CAPABILITY, CAPABILITY_HEAD, NICKNAME, 5 * count);
        pen.records(at, count);
        at = at.add(NUMBER * 3 * count);
    }
    let count = number(at, 0);
    at = at.add(NUMBER);
    for _ in 0..count {
        let count = number(at, 1) as usize;
        pen.sub(CAPABILITY, CAPABILITY_HEAD, TREES, 2 + 2 * count);
        pen.two(raw(at, 0));
        pen.twos(at.add(2 * NUMBER), count);
        at = at.add(NUMBER * (2 + count));
    }
    let count = number(at, 0);
    at = at.add(NUMBER);
    for _ in 0..count {
        let count = number(at, 3) as usize;
        pen.sub(GENINFO, GENINFO_HEAD, SMART_MAC, 4 + 6 * count);
        let word = number(at, 0) << 31 | number(at, 1) << 30 | number(at, 2);
        let place = pen.at.cast::<u32>();
        place.write_unaligned((word as u32).to_be());
        pen.at = pen.at.add(4);
        pen.addresses(at.add(4 * NUMBER), count);
        at = at.add(NUMBER * (4 + count));
    }
    *pen.open.add(1) = pen.used as u8;
    WRITTEN | (size.length as u64) << 8
}
