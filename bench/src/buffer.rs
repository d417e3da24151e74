//! Bytes at a fixed place within their pages, so that no row depends on where the allocator puts them.

use std::ops::{Deref, DerefMut};

const PAGE: usize = 4096;

pub struct Buffer {
    memory: Vec<u8>,
    /// The place within a page.
    place: usize,
    start: usize,
    length: usize,
}

impl Buffer {
    /// For what a call reads: from the start of a page.
    pub fn input(bytes: &[u8]) -> Buffer {
        Buffer::new(bytes, 0)
    }

    /// For what a call writes: from the middle of a page, so that a copy from an input does not load
    /// from addresses whose low 12 bits are those of stores just made.
    pub fn lent(bytes: &[u8]) -> Buffer {
        Buffer::new(bytes, PAGE / 2)
    }

    fn new(bytes: &[u8], place: usize) -> Buffer {
        let length = bytes.len();
        let memory = vec![0; PAGE + place + length];
        let start = memory.as_ptr().align_offset(PAGE) + place;
        let mut buffer = Buffer {
            memory,
            place,
            start,
            length,
        };
        buffer.copy_from_slice(bytes);
        buffer
    }
}

impl Clone for Buffer {
    fn clone(&self) -> Buffer {
        Buffer::new(self, self.place)
    }
}

impl Deref for Buffer {
    type Target = [u8];

    fn deref(&self) -> &[u8] {
        &self.memory[self.start..][..self.length]
    }
}

impl DerefMut for Buffer {
    fn deref_mut(&mut self) -> &mut [u8] {
        &mut self.memory[self.start..][..self.length]
    }
}
