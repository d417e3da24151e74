//! Areas against memory that cannot be accessed: a call that reads or writes a byte outside the areas
//! it was lent, or writes to one that is only lent for reading, ends the run by SIGSEGV.
//!
//! The memory is that of mmap, on Linux. An area touches inaccessible memory on one side; each call is
//! made with both sides in turn.

#![allow(unsafe_code)]

use std::ffi::{c_int, c_void};
use std::ops::Deref;
use std::slice;

use shinglebar::exports;

use crate::lend::{Lend, Read, Write};
use crate::reference::RECORD;

extern "C" {
    fn mmap(
        address: *mut c_void,
        length: usize,
        protection: c_int,
        flags: c_int,
        file: c_int,
        offset: i64,
    ) -> *mut c_void;
    fn mprotect(address: *mut c_void, length: usize, protection: c_int) -> c_int;
    fn munmap(address: *mut c_void, length: usize) -> c_int;
}

const PROT_NONE: c_int = 0;
const PROT_READ: c_int = 1;
const PROT_WRITE: c_int = 2;
const MAP_PRIVATE: c_int = 0x02;
const MAP_ANONYMOUS: c_int = 0x20;

/// The bytes of a region that can be accessed, more than the longest area; and of those that cannot, on
/// each side of them. Whole pages.
const ROOM: usize = 1 << 17;
const WALL: usize = 1 << 20;

/// The side on which an area touches inaccessible memory.
#[derive(Clone, Copy, Debug)]
pub enum Side {
    Before,
    Behind,
}

/// `ROOM` bytes between walls.
struct Region {
    mapping: *mut u8,
}

impl Region {
    fn new() -> Region {
        // SAFETY: a new mapping, which touches no memory in use.
        let mapping = unsafe {
            mmap(
                std::ptr::null_mut(),
                WALL + ROOM + WALL,
                PROT_NONE,
                MAP_PRIVATE | MAP_ANONYMOUS,
                -1,
                0,
            )
        };
        assert!(mapping as isize != -1, "mmap failed");
        let region = Region {
            mapping: mapping.cast(),
        };
        region.protect(PROT_READ | PROT_WRITE);
        region
    }

    /// The first byte of the room.
    fn room(&self) -> *mut u8 {
        // SAFETY: within the mapping.
        unsafe { self.mapping.add(WALL) }
    }

    fn protect(&self, protection: c_int) {
        // SAFETY: whole pages of a mapping of our own. Whoever calls this holds the region alone, so
        // no slice of it is in use.
        let status = unsafe { mprotect(self.room().cast(), ROOM, protection) };
        assert!(status == 0, "mprotect failed");
    }

    /// An area with these bytes.
    fn lend(&mut self, side: Side, bytes: &[u8]) -> &mut [u8] {
        assert!(bytes.len() <= ROOM, "an area of {} bytes", bytes.len());
        let offset = match side {
            Side::Before => 0,
            Side::Behind => ROOM - bytes.len(),
        };
        // SAFETY: bytes of the room, which can be read and written and were zero at first. The region
        // is borrowed for as long as the slice.
        let area = unsafe { slice::from_raw_parts_mut(self.room().add(offset), bytes.len()) };
        area.copy_from_slice(bytes);
        area
    }

    /// The same, in memory that can only be read for as long as the area is there.
    fn lend_to_read(&mut self, side: Side, bytes: &[u8]) -> ReadOnly<'_> {
        let area = self.lend(side, bytes);
        let (start, length) = (area.as_ptr(), area.len());
        self.protect(PROT_READ);
        ReadOnly {
            region: self,
            start,
            length,
        }
    }
}

impl Drop for Region {
    fn drop(&mut self) {
        // SAFETY: the mapping made in `new`, of which no slice is left.
        unsafe { munmap(self.mapping.cast(), WALL + ROOM + WALL) };
    }
}

/// An area that can only be read.
struct ReadOnly<'a> {
    region: &'a mut Region,
    start: *const u8,
    length: usize,
}

impl Deref for ReadOnly<'_> {
    type Target = [u8];

    fn deref(&self) -> &[u8] {
        // SAFETY: bytes of the room of the region, which is borrowed for as long as this.
        unsafe { slice::from_raw_parts(self.start, self.length) }
    }
}

impl Drop for ReadOnly<'_> {
    fn drop(&mut self) {
        self.region.protect(PROT_READ | PROT_WRITE);
    }
}

/// A lender of such areas, each in a region of its own.
pub struct Pages {
    side: Side,
    read: [Region; 4],
    write: [Region; 2],
}

impl Pages {
    pub fn new(side: Side) -> Pages {
        Pages {
            side,
            read: [(); 4].map(|()| Region::new()),
            write: [Region::new(), Region::new()],
        }
    }

    /// A lender for each side.
    pub fn both() -> [Pages; 2] {
        [Pages::new(Side::Before), Pages::new(Side::Behind)]
    }
}

impl Lend for Pages {
    fn lend<const R: usize, const W: usize>(
        &mut self,
        read: [Read; R],
        write: [Write; W],
        call: impl FnOnce([&[u8]; R], [&mut [u8]; W]) -> u64,
    ) -> u64 {
        let mut regions = self.read.iter_mut();
        let read_areas = read.map(|(_, bytes)| {
            let region = regions.next().expect("a call reads four areas at most");
            region.lend_to_read(self.side, bytes)
        });
        let mut regions = self.write.iter_mut();
        let mut areas = write.each_ref().map(|(_, bytes)| {
            let region = regions.next().expect("a call writes two areas at most");
            region.lend(self.side, bytes)
        });
        let word = call(
            read_areas.each_ref().map(|area| &**area),
            areas.each_mut().map(|area| &mut **area),
        );
        for ((_, bytes), area) in write.into_iter().zip(areas) {
            bytes.copy_from_slice(area);
        }
        word
    }
}

/// Accesses of a program that is to die of them, but for the first: they show that a run can fail.
#[derive(Clone, Copy, Debug, PartialEq, Eq)]
pub enum Access {
    /// Every byte of the areas is read, and written in those lent for writing.
    AllThatIsLent,
    ReadBehind,
    ReadBefore,
    WriteToReadOnly,
    /// The library reads behind its table, which it is told is a byte longer.
    CallReadsBehind,
    /// The library reads before its table, which it is told begins a byte earlier.
    CallReadsBefore,
    /// The library writes behind its output area, which it is told is a byte longer.
    CallWritesBehind,
    /// The library ages a table in memory that can only be read.
    CallWritesToReadOnly,
}

impl Access {
    pub const ALL: [Access; 8] = [
        Access::AllThatIsLent,
        Access::ReadBehind,
        Access::ReadBefore,
        Access::WriteToReadOnly,
        Access::CallReadsBehind,
        Access::CallReadsBefore,
        Access::CallWritesBehind,
        Access::CallWritesToReadOnly,
    ];

    /// P1 of document 01, a learned record.
    const LEARNED: [u8; RECORD] = [
        0x40, 0x00, 0x01, 0x40, 0x40, 0x00, 0x00, 0x00, 0x00, 0x22, 0x46, 0x82, 0x81, 0x2C, 0x00,
    ];

    /// P10 of document 01, which compacts to 28 bytes.
    const FRAME: [u8; 40] = [
        0x02, 0, 0, 0, 0, 0xA1, 0x02, 0, 0, 0, 0, 0xB2, 0x22, 0xF3, 0x00, 0x05, 0x01, 0x02, 0x12,
        0x34, 0x02, 0, 0, 0, 0, 0x0D, 0x02, 0, 0, 0, 0, 0x01, 0x81, 0x00, 0x00, 0x0A, 0x08, 0x00,
        0x45, 0x00,
    ];

    /// Makes the access. The process dies of it, but for the first.
    pub fn make(self) {
        let mut region = Region::new();
        // A byte short of a free record, of which every byte counts.
        let table = [0; RECORD - 1];
        // SAFETY: none but for the first. The others are meant to fault: the byte they access lies in
        // a wall or in memory that cannot be written, so the process dies before anything follows.
        unsafe {
            match self {
                Access::AllThatIsLent => {
                    for side in [Side::Before, Side::Behind] {
                        region.lend(side, &table).fill(1);
                        assert_eq!(region.lend_to_read(side, &table)[..], table);
                    }
                }
                Access::ReadBehind => {
                    let area = region.lend(Side::Behind, &table);
                    area.as_ptr().add(table.len()).read_volatile();
                }
                Access::ReadBefore => {
                    let area = region.lend(Side::Before, &table);
                    area.as_ptr().sub(1).read_volatile();
                }
                Access::WriteToReadOnly => {
                    let area = region.lend_to_read(Side::Behind, &table);
                    area.start.cast_mut().write_volatile(0);
                }
                Access::CallReadsBehind => {
                    let area = region.lend(Side::Behind, &table);
                    exports::shinglebar_spoilt(area.as_ptr(), table.len() + 1);
                }
                Access::CallReadsBefore => {
                    let area = region.lend(Side::Before, &table);
                    exports::shinglebar_spoilt(area.as_ptr().sub(1), table.len() + 1);
                }
                Access::CallWritesBehind => {
                    let (port, inner) = (0x0200_0000_00A1, 0x0200_0000_00B1);
                    let (frame, length) = (Access::FRAME, 27);
                    let area = region.lend(Side::Behind, &[0; 27]);
                    exports::shinglebar_compact(
                        port,
                        inner,
                        0x0102,
                        1,
                        20,
                        0,
                        frame.as_ptr(),
                        frame.len(),
                        area.as_mut_ptr(),
                        length + 1,
                    );
                }
                Access::CallWritesToReadOnly => {
                    let area = region.lend_to_read(Side::Behind, &Access::LEARNED);
                    exports::shinglebar_age(1, area.start.cast_mut(), area.length);
                }
            }
        }
    }
}
