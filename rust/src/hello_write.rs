//! Smart-Hellos: contents to payloads.

use crate::hello::NUMBER;
use crate::{answered, raw, Mac, NicknameRecord, Refusal, WrittenHello};

/// Writes the payload of a Smart-Hello from a contents area. It may be longer than the payload that the contents were read from: sorted
/// by kind, sub-TLVs can fill their TLVs less well.
///
/// ```
/// use shinglebar::{hello_write, ContentsWriter, Mac, Refusal};
///
/// let mut area = [0; 128];
/// let mut contents = ContentsWriter::new(&mut area, 30, 0);
/// contents.nicknames(0).trees(0).macs(1);
/// contents.mac(false, true, 10, &[Mac([2, 0, 0, 0, 0, 1])]);
/// let length = contents.length().expect("an area that is long enough");
///
/// let mut payload = [0; 64];
/// let written = hello_write(&area[..length], &mut payload)?;
/// assert_eq!(payload[..written.length], [
///     0xFB, 21, 0, 0, 1, 22, 4, 0, 30, 0, 0, 23, 10, 0x40, 0, 0, 10, 2, 0, 0, 0, 0, 1,
/// ]);
/// # Ok::<(), Refusal>(())
/// ```
#[inline]
pub fn hello_write(contents: &[u8], out: &mut [u8]) -> Result<WrittenHello, Refusal> {
    answered(raw::hello_write(contents, out))
}

/// Makes a contents area: the parameters, then each section with its count first, in the order of the functions.
#[derive(Debug)]
pub struct ContentsWriter<'a> {
    area: &'a mut [u8],
    length: Option<usize>,
}

impl<'a> ContentsWriter<'a> {
    /// Contents with this holding time and these flags.
    pub fn new(area: &'a mut [u8], holding: u16, flags: u16) -> ContentsWriter<'a> {
        let mut made = ContentsWriter {
            area,
            length: Some(0),
        };
        made.put(1).put(holding.into()).put(flags.into());
        made
    }

    fn put(&mut self, number: u64) -> &mut Self {
        self.length = self.length.and_then(|at| {
            let place = self.area.get_mut(at..)?.first_chunk_mut::<NUMBER>()?;
            *place = number.to_be_bytes();
            Some(at + NUMBER)
        });
        self
    }

    /// How many Nickname sub-TLVs follow.
    pub fn nicknames(&mut self, count: usize) -> &mut Self {
        self.put(count as u64)
    }

    /// One of them.
    pub fn nickname(&mut self, records: &[NicknameRecord]) -> &mut Self {
        self.put(records.len() as u64);
        for record in records {
            self.put(record.priority.into());
            self.put(record.root_priority.into());
            self.put(record.nickname.into());
        }
        self
    }

    /// How many Tree Identifiers sub-TLVs follow.
    pub fn trees(&mut self, count: usize) -> &mut Self {
        self.put(count as u64)
    }

    /// One of them.
    pub fn tree(&mut self, start: u16, nicknames: &[u16]) -> &mut Self {
        self.put(start.into()).put(nicknames.len() as u64);
        for &nickname in nicknames {
            self.put(nickname.into());
        }
        self
    }

    /// How many Smart-MAC APPsub-TLVs follow.
    pub fn macs(&mut self, count: usize) -> &mut Self {
        self.put(count as u64)
    }

    /// One of them.
    pub fn mac(&mut self, fine: bool, multihomed: bool, label: u32, macs: &[Mac]) -> &mut Self {
        self.put(fine.into()).put(multihomed.into());
        self.put(label.into()).put(macs.len() as u64);
        for mac in macs {
            self.put(mac.number());
        }
        self
    }

    /// The bytes of the area that are used, if it was long enough.
    pub fn length(&self) -> Option<usize> {
        self.length
    }
}
