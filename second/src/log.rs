//! The fields of a log. A field is either whole or it ends the reading.

use crate::numbers::largest_in_range;
#[cfg(test)]
use crate::reading_slips::ReadingSlips;

/// A byte with this offset is past what a log may have. It is not looked at, and ends the reading.
pub const LOG_END: u64 = 1 << 48;

const OPEN: u8 = 1;
const CLOSE: u8 = 2;
const RENAME: u8 = 3;
const RECORD: u8 = 4;
const SERVE: u8 = 5;
const LARGEST: u8 = 6;
pub const FIRST_PASSED_OVER: u8 = 128;

/// One tag byte and two length bytes.
pub const HEAD_BYTES: usize = 3;

#[derive(Clone, Copy, Debug, PartialEq, Eq)]
pub enum Field<'a> {
    Largest {
        largest: u16,
    },
    Open {
        block: u32,
        share: u32,
    },
    Close {
        block: u32,
    },
    Rename {
        old: u32,
        new: u32,
    },
    Record {
        block: u32,
        number: u32,
        length: u16,
    },
    Serve,
    /// Passed over, with any tag from 128 and any value of at most 65,535 bytes.
    Other {
        tag: u8,
        value: &'a [u8],
    },
}

/// What ended the reading of a log, if it is not the log's end behind a whole field.
#[derive(Clone, Copy, Debug, PartialEq, Eq)]
pub enum Stop {
    /// A field is wrong, or the log ends in it: the offset of its first byte.
    Broken { offset: u64 },
    /// A byte past 2^48 came before the field was whole, and nothing was wrong with the bytes before.
    Long,
}

/// Reads the fields of a log one by one.
#[derive(Clone, Debug)]
pub struct Reader<'a> {
    /// The bytes of the log that are not past 2^48.
    log: &'a [u8],
    /// The offset of the log's first byte.
    first: u64,
    /// Whether another byte follows, which is past 2^48.
    goes_past: bool,
    read: usize,
    #[cfg(test)]
    pub(crate) slips: ReadingSlips,
}

impl<'a> Reader<'a> {
    /// A log whose first byte has this offset; L is not read yet.
    pub fn new(log: &'a [u8], first: u64) -> Reader<'a> {
        Reader::up_to(LOG_END, log, first)
    }

    pub(crate) fn up_to(end: u64, log: &'a [u8], first: u64) -> Reader<'a> {
        let room = usize::try_from(end.saturating_sub(first)).unwrap_or(usize::MAX);
        let within = &log[..log.len().min(room)];
        Reader {
            log: within,
            first,
            goes_past: within.len() < log.len(),
            read: 0,
            #[cfg(test)]
            slips: ReadingSlips::default(),
        }
    }

    /// Reads L, which comes first and is in range.
    pub fn begin(mut self) -> Result<(u32, Reader<'a>), Stop> {
        match self.take_field(|tag| tag == LARGEST)? {
            Field::Largest { largest } => Ok((u32::from(largest), self)),
            _ => unreachable!("no other tag may stand here"),
        }
    }

    /// How many bytes of the log the fields before have.
    pub fn read(&self) -> usize {
        self.read
    }

    /// Judges the next field by its bytes in order, as far as they are there.
    fn take_field(&mut self, may_stand: impl Fn(u8) -> bool) -> Result<Field<'a>, Stop> {
        let offset = self.first + self.read as u64;
        #[cfg(test)]
        let offset = self.slips.offset(offset, self.read);
        let broken = Stop::Broken { offset };
        let cut = if self.goes_past { Stop::Long } else { broken };
        #[cfg(test)]
        let (broken, cut) = self.slips.stops(broken, cut);
        let [tag, after_tag @ ..] = &self.log[self.read..] else {
            return Err(cut);
        };
        if !may_stand(*tag) {
            return Err(broken);
        }
        let [high, low, after_head @ ..] = after_tag else {
            return Err(cut);
        };
        let length = u16::from_be_bytes([*high, *low]);
        if !is_length_of(*tag, length) {
            return Err(broken);
        }
        let value = after_head.get(..length.into()).ok_or(cut)?;
        #[cfg(test)]
        let value = self.slips.value(*tag, value, self.read + HEAD_BYTES);
        let field = field_of(*tag, value);
        if matches!(field, Field::Largest { largest } if !largest_in_range(largest.into())) {
            return Err(broken);
        }
        self.read += HEAD_BYTES + value.len();
        Ok(field)
    }
}

impl<'a> Iterator for Reader<'a> {
    type Item = Result<Field<'a>, Stop>;

    /// The next field after L; nothing at the end of the log. A reading that has stopped stops again.
    fn next(&mut self) -> Option<Self::Item> {
        if self.read == self.log.len() && !self.goes_past {
            return None;
        }
        Some(self.take_field(|tag| (OPEN..=SERVE).contains(&tag) || tag >= FIRST_PASSED_OVER))
    }
}

/// Whether a value with this tag, which may stand somewhere, can have this length.
fn is_length_of(tag: u8, length: u16) -> bool {
    match tag {
        OPEN | RENAME => length == 8,
        CLOSE => length == 4,
        RECORD => length == 10,
        SERVE => length == 0,
        LARGEST => length == 2,
        _ => true,
    }
}

/// The field with a tag that may stand somewhere and a value of its length.
fn field_of(tag: u8, value: &[u8]) -> Field<'_> {
    match tag {
        OPEN => Field::Open { block: u32_at(value, 0), share: u32_at(value, 4) },
        CLOSE => Field::Close { block: u32_at(value, 0) },
        RENAME => Field::Rename { old: u32_at(value, 0), new: u32_at(value, 4) },
        RECORD => Field::Record { block: u32_at(value, 0), number: u32_at(value, 4), length: u16_at(value, 8) },
        SERVE => Field::Serve,
        LARGEST => Field::Largest { largest: u16_at(value, 0) },
        _ => Field::Other { tag, value },
    }
}

fn u16_at(bytes: &[u8], at: usize) -> u16 {
    u16::from_be_bytes([bytes[at], bytes[at + 1]])
}

fn u32_at(bytes: &[u8], at: usize) -> u32 {
    u32::from_be_bytes([bytes[at], bytes[at + 1], bytes[at + 2], bytes[at + 3]])
}

impl Field<'_> {
    /// Adds the field's bytes to a log.
    pub fn write(&self, log: &mut Vec<u8>) {
        match *self {
            Field::Largest { largest } => write_field(log, LARGEST, &[&largest.to_be_bytes()]),
            Field::Open { block, share } => write_field(log, OPEN, &[&block.to_be_bytes(), &share.to_be_bytes()]),
            Field::Close { block } => write_field(log, CLOSE, &[&block.to_be_bytes()]),
            Field::Rename { old, new } => write_field(log, RENAME, &[&old.to_be_bytes(), &new.to_be_bytes()]),
            Field::Record { block, number, length } => {
                write_field(log, RECORD, &[&block.to_be_bytes(), &number.to_be_bytes(), &length.to_be_bytes()])
            }
            Field::Serve => write_field(log, SERVE, &[]),
            Field::Other { tag, value } => write_field(log, tag, &[value]),
        }
    }
}

fn write_field(log: &mut Vec<u8>, tag: u8, numbers: &[&[u8]]) {
    let value = numbers.concat();
    let length = u16::try_from(value.len()).expect("a value has at most 65,535 bytes");
    log.push(tag);
    log.extend_from_slice(&length.to_be_bytes());
    log.extend_from_slice(&value);
}
