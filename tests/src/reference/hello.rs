//! Smart-Hellos: document 02, 2026-13, over document 003 (RFC 8384, sections 4.1 to 4.3). The layouts of TLV 242 and its
//! sub-TLVs are RFC 7981 and RFC 7176 (2.3.2, 2.3.4), that of TLV 251 is RFC 6823.

use super::answer::{word, Pack};
use super::number;
use super::refusal::Refusal;

/// TLV 242, router capability: Router ID 4 bytes, flags 1.
const CAPABILITY: u8 = 242;
const CAPABILITY_HEAD: usize = 5;

/// TLV 251, GENINFO: flags 1 byte, application 2, and addresses that the flags say are there.
const GENINFO: u8 = 251;
const GENINFO_HEAD: usize = 3;
const IPV4_FLAG: u8 = 0x04;
const IPV6_FLAG: u8 = 0x08;
const TRILL_APPLICATION: u64 = 1;

const SMART_PARAMETERS: u8 = 22;
const SMART_MAC: u8 = 23;
const NICKNAME: u8 = 6;
const TREE_IDENTIFIERS: u8 = 8;

/// What one byte of length allows.
const MOST: usize = 255;

/// "Smart-Parameters (type 22, length 4, holding time, flags)"
#[derive(Clone, Copy, Debug, PartialEq, Eq)]
pub struct Parameters {
    pub holding: u64,
    pub flags: u64,
}

/// A record of a Nickname sub-TLV.
#[derive(Clone, Copy, Debug, PartialEq, Eq)]
pub struct Nickname {
    pub priority: u64,
    pub root_priority: u64,
    pub nickname: u64,
}

/// A Tree Identifiers sub-TLV.
#[derive(Clone, Debug, PartialEq, Eq)]
pub struct Trees {
    pub start: u64,
    pub nicknames: Vec<u64>,
}

/// A Smart-MAC APPsub-TLV: F, M, label, MACs.
#[derive(Clone, Debug, PartialEq, Eq)]
pub struct SmartMac {
    pub fine: u64,
    pub multihomed: u64,
    pub label: u64,
    pub macs: Vec<u64>,
}

/// "Contents are each kind's sub-TLVs in order, with those flags, without other reserved bits." Numbers of any size, as the area
/// can hold them; `parameters` is none where an area says 0 of them.
#[derive(Clone, Debug, Default, PartialEq, Eq)]
pub struct Contents {
    pub parameters: Option<Parameters>,
    pub nicknames: Vec<Vec<Nickname>>,
    pub trees: Vec<Trees>,
    pub macs: Vec<SmartMac>,
}

/// The length of what was written.
struct Length(usize);

impl Pack for Length {
    fn pack(&self) -> u64 {
        64 | (self.0 as u64) << 8
    }
}

/// Type and value of each piece; "a piece past its end" and a lone byte are 25.
fn pieces(mut bytes: &[u8]) -> Result<Vec<(u8, &[u8])>, Refusal> {
    let mut found = Vec::new();
    while let [kind, rest @ ..] = bytes {
        let [length, rest @ ..] = rest else {
            return Err(Refusal::Hello);
        };
        let value = rest.get(..usize::from(*length)).ok_or(Refusal::Hello)?;
        found.push((*kind, value));
        bytes = &rest[value.len()..];
    }
    Ok(found)
}

/// The whole numbers of `width` bytes of a value.
fn numbers(width: usize, value: &[u8]) -> Vec<u64> {
    value.chunks_exact(width).map(number).collect()
}

impl Contents {
    /// "25 a piece past its end, a length its type doesn't allow, Smart-Parameters twice [..]; then 26 parameters missing"
    pub fn read(payload: &[u8]) -> Result<Contents, Refusal> {
        let mut contents = Contents::default();
        for (kind, value) in pieces(payload)? {
            match kind {
                CAPABILITY => contents.read_capability(value)?,
                GENINFO => contents.read_geninfo(value)?,
                // "so is a TLV of another kind (Neighbor too)" skipped
                _ => {}
            }
        }
        match contents.parameters {
            Some(_) => Ok(contents),
            None => Err(Refusal::ParametersMissing),
        }
    }

    fn read_capability(&mut self, value: &[u8]) -> Result<(), Refusal> {
        let subs = value.get(CAPABILITY_HEAD..).ok_or(Refusal::Hello)?;
        for (kind, value) in pieces(subs)? {
            match kind {
                NICKNAME if value.len() % 5 == 0 => {
                    let record = |bytes: &[u8]| Nickname {
                        priority: number(&bytes[..1]),
                        root_priority: number(&bytes[1..3]),
                        nickname: number(&bytes[3..]),
                    };
                    self.nicknames
                        .push(value.chunks_exact(5).map(record).collect());
                }
                TREE_IDENTIFIERS if value.len() % 2 == 0 && value.len() >= 2 => {
                    self.trees.push(Trees {
                        start: number(&value[..2]),
                        nicknames: numbers(2, &value[2..]),
                    });
                }
                NICKNAME | TREE_IDENTIFIERS => return Err(Refusal::Hello),
                _ => {}
            }
        }
        Ok(())
    }

    fn read_geninfo(&mut self, value: &[u8]) -> Result<(), Refusal> {
        if value.len() < GENINFO_HEAD {
            return Err(Refusal::Hello);
        }
        let (head, mut rest) = value.split_at(GENINFO_HEAD);
        // "a TLV of another kind (Neighbor too) or application" is skipped, whatever follows its application
        if number(&head[1..]) != TRILL_APPLICATION {
            return Ok(());
        }
        for (flag, length) in [(IPV4_FLAG, 4), (IPV6_FLAG, 16)] {
            if head[0] & flag != 0 {
                rest = rest.get(length..).ok_or(Refusal::Hello)?;
            }
        }
        for (kind, value) in pieces(rest)? {
            match kind {
                SMART_PARAMETERS if value.len() == 4 && self.parameters.is_none() => {
                    self.parameters = Some(Parameters {
                        holding: number(&value[..2]),
                        flags: number(&value[2..]),
                    });
                }
                SMART_MAC if value.len() >= 4 && (value.len() - 4) % 6 == 0 => {
                    let word = number(&value[..4]);
                    let fine = word >> 31;
                    self.macs.push(SmartMac {
                        fine,
                        multihomed: word >> 30 & 1,
                        // "if F is 0, the lower 12 bits are the VLAN [..], and the upper 12 bits are not used"
                        label: word & if fine == 1 { 0xFF_FFFF } else { 0xFFF },
                        macs: numbers(6, &value[4..]),
                    });
                }
                SMART_PARAMETERS | SMART_MAC => return Err(Refusal::Hello),
                _ => {}
            }
        }
        Ok(())
    }

    /// The payload: "25 [..] writing, a number over its field or a list that no TLV holds; then 26 parameters missing".
    pub fn write(&self) -> Result<Vec<u8>, Refusal> {
        let mut writer = Writer::default();
        if let Some(parameters) = self.parameters {
            let mut value = Vec::new();
            field(&mut value, parameters.holding, 2)?;
            field(&mut value, parameters.flags, 2)?;
            writer.put(GENINFO, SMART_PARAMETERS, &value)?;
        }
        for records in &self.nicknames {
            let mut value = Vec::new();
            for record in records {
                field(&mut value, record.priority, 1)?;
                field(&mut value, record.root_priority, 2)?;
                field(&mut value, record.nickname, 2)?;
            }
            writer.put(CAPABILITY, NICKNAME, &value)?;
        }
        for trees in &self.trees {
            let mut value = Vec::new();
            for &number in [trees.start].iter().chain(&trees.nicknames) {
                field(&mut value, number, 2)?;
            }
            writer.put(CAPABILITY, TREE_IDENTIFIERS, &value)?;
        }
        for macs in &self.macs {
            // "with F 0 the label's field is 12 bits"
            let label = if macs.fine == 0 { 0xFFF } else { 0xFF_FFFF };
            if macs.fine > 1 || macs.multihomed > 1 || macs.label > label {
                return Err(Refusal::Hello);
            }
            let mut value = Vec::new();
            let word = macs.fine << 31 | macs.multihomed << 30 | macs.label;
            field(&mut value, word, 4)?;
            for &mac in &macs.macs {
                field(&mut value, mac, 6)?;
            }
            writer.put(GENINFO, SMART_MAC, &value)?;
        }
        match self.parameters {
            Some(_) => Ok(writer.done()),
            None => Err(Refusal::ParametersMissing),
        }
    }

    /// The contents area: numbers of 8 bytes.
    pub fn area(&self) -> Vec<u8> {
        let mut all = vec![self.parameters.iter().len() as u64];
        all.extend(self.parameters.iter().flat_map(|p| [p.holding, p.flags]));
        all.push(self.nicknames.len() as u64);
        for records in &self.nicknames {
            all.push(records.len() as u64);
            for record in records {
                all.extend([record.priority, record.root_priority, record.nickname]);
            }
        }
        all.push(self.trees.len() as u64);
        for trees in &self.trees {
            all.extend([trees.start, trees.nicknames.len() as u64]);
            all.extend(&trees.nicknames);
        }
        all.push(self.macs.len() as u64);
        for macs in &self.macs {
            all.extend([
                macs.fine,
                macs.multihomed,
                macs.label,
                macs.macs.len() as u64,
            ]);
            all.extend(&macs.macs);
        }
        all.iter().flat_map(|number| number.to_be_bytes()).collect()
    }

    /// The contents of an area: "A length that is no multiple of 8, a count past the end, or numbers left over are 25"; so are more than
    /// one Smart-Parameters.
    pub fn of_area(area: &[u8]) -> Result<Contents, Refusal> {
        if area.len() % 8 != 0 {
            return Err(Refusal::Hello);
        }
        let mut area = Numbers(
            area.chunks_exact(8)
                .map(number)
                .collect::<Vec<_>>()
                .into_iter(),
        );
        let parameters = match area.next()? {
            0 => None,
            1 => Some(Parameters {
                holding: area.next()?,
                flags: area.next()?,
            }),
            _ => return Err(Refusal::Hello),
        };
        let nicknames = area.counted(|area| {
            area.counted(|area| {
                Ok(Nickname {
                    priority: area.next()?,
                    root_priority: area.next()?,
                    nickname: area.next()?,
                })
            })
        })?;
        let trees = area.counted(|area| {
            Ok(Trees {
                start: area.next()?,
                nicknames: area.counted(Numbers::next)?,
            })
        })?;
        let macs = area.counted(|area| {
            Ok(SmartMac {
                fine: area.next()?,
                multihomed: area.next()?,
                label: area.next()?,
                macs: area.counted(Numbers::next)?,
            })
        })?;
        match area.0.len() {
            0 => Ok(Contents {
                parameters,
                nicknames,
                trees,
                macs,
            }),
            _ => Err(Refusal::Hello),
        }
    }
}

/// The numbers of an area that are left.
struct Numbers(std::vec::IntoIter<u64>);

impl Numbers {
    fn next(&mut self) -> Result<u64, Refusal> {
        self.0.next().ok_or(Refusal::Hello)
    }

    /// A count, and so many elements.
    fn counted<T>(
        &mut self,
        mut element: impl FnMut(&mut Numbers) -> Result<T, Refusal>,
    ) -> Result<Vec<T>, Refusal> {
        let mut found = Vec::new();
        // an element has a number at least, so a count past the end ends with the area
        for _ in 0..self.next()? {
            found.push(element(self)?);
        }
        Ok(found)
    }
}

/// A number in its field of so many bytes, or 25.
fn field(bytes: &mut Vec<u8>, number: u64, width: usize) -> Result<(), Refusal> {
    if number >> (8 * width) != 0 {
        return Err(Refusal::Hello);
    }
    bytes.extend(&number.to_be_bytes()[8 - width..]);
    Ok(())
}

/// "each TLV taking as many of the next as it holds": the TLVs that are closed, and the open one.
#[derive(Default)]
struct Writer {
    bytes: Vec<u8>,
    open: Option<(u8, Vec<u8>)>,
}

impl Writer {
    /// The head of a TLV: "other fields are written as their RFCs say, else 0".
    fn head(holder: u8) -> Vec<u8> {
        match holder {
            GENINFO => vec![0, 0, 1],
            _ => vec![0; CAPABILITY_HEAD],
        }
    }

    /// A sub-TLV in the open TLV if that is of this kind and has room, else in a new one. A value that no TLV holds is 25.
    fn put(&mut self, holder: u8, kind: u8, value: &[u8]) -> Result<(), Refusal> {
        let mut sub = vec![kind, value.len() as u8];
        sub.extend(value);
        if Writer::head(holder).len() + sub.len() > MOST {
            return Err(Refusal::Hello);
        }
        match &mut self.open {
            Some((open, bytes)) if *open == holder && bytes.len() + sub.len() <= MOST => {
                bytes.extend(sub);
            }
            _ => {
                self.close();
                self.open = Some((holder, [Writer::head(holder), sub].concat()));
            }
        }
        Ok(())
    }

    fn close(&mut self) {
        if let Some((holder, value)) = self.open.take() {
            self.bytes.extend([holder, value.len() as u8]);
            self.bytes.extend(value);
        }
    }

    fn done(mut self) -> Vec<u8> {
        self.close();
        self.bytes
    }
}

/// Written from the start of the area; "then 16".
fn laid(result: Result<Vec<u8>, Refusal>, area: &mut [u8]) -> Result<Length, Refusal> {
    let bytes = result?;
    let part = area.get_mut(..bytes.len()).ok_or(Refusal::OutputLength)?;
    part.copy_from_slice(&bytes);
    Ok(Length(bytes.len()))
}

/// The payload of a Smart-Hello as its contents.
pub fn hello_read(payload: &[u8], contents: &mut [u8]) -> u64 {
    word(laid(
        Contents::read(payload).map(|found| found.area()),
        contents,
    ))
}

/// Contents as the payload of a Smart-Hello.
pub fn hello_write(contents: &[u8], out: &mut [u8]) -> u64 {
    word(laid(
        Contents::of_area(contents).and_then(|found| found.write()),
        out,
    ))
}
