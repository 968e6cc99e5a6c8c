//! A log as the shed gets it: in fragments, its first byte at any offset. A file is a row of such cases.
//!
//! What the box makes of a log does not depend on how it is cut, so here the fragments are joined. The room is for a
//! program that is lent a buffer for what it writes.

use crate::listing;
use crate::log::LOG_END;
use crate::play::play_at;
use crate::report::report_at;

/// A fragment has at most this many bytes, and a buffer at most this much room.
pub const MOST_AT_ONCE: usize = 4_096;

/// In place of a fragment's length: the log has ended.
const ENDED: u16 = u16::MAX;

/// The line that follows what is made of a case.
const CASE_END: &str = "--\n";

#[derive(Clone, Copy, Debug, PartialEq, Eq)]
pub enum Kind {
    Listing = 0,
    Report = 1,
}

impl Kind {
    pub fn least_room(self) -> usize {
        match self {
            Kind::Listing => 64,
            Kind::Report => 128,
        }
    }
}

#[derive(Clone, Debug, PartialEq, Eq)]
pub struct FeedCase {
    pub kind: Kind,
    /// The offset of the log's first byte.
    pub first: u64,
    pub room: u16,
    pub fragments: Vec<Vec<u8>>,
}

impl FeedCase {
    pub fn joined(&self) -> Vec<u8> {
        self.fragments.concat()
    }

    pub fn answer(&self) -> String {
        let said = match self.kind {
            Kind::Listing => listing::text(&play_at(&self.joined(), self.first)),
            Kind::Report => report_at(&self.joined(), self.first),
        };
        said + CASE_END
    }

    /// Adds the case to a file.
    pub fn write(&self, file: &mut Vec<u8>) {
        file.push(self.kind as u8);
        file.extend(self.first.to_be_bytes());
        file.extend(self.room.to_be_bytes());
        for fragment in &self.fragments {
            file.extend((fragment.len() as u16).to_be_bytes());
            file.extend(fragment);
        }
        file.extend(ENDED.to_be_bytes());
    }
}

/// The cases of a file. One that is not whole is the last.
pub struct FeedCases<'a> {
    rest: &'a [u8],
}

impl<'a> FeedCases<'a> {
    pub fn of(file: &'a [u8]) -> FeedCases<'a> {
        FeedCases { rest: file }
    }

    fn case(&mut self) -> Result<FeedCase, String> {
        let [kind] = self.take()?;
        let kind = match kind {
            0 => Kind::Listing,
            1 => Kind::Report,
            _ => return Err(format!("{kind} is not a kind")),
        };
        let first = u64::from_be_bytes(self.take()?);
        if first > LOG_END {
            return Err(format!("{first} is not an offset"));
        }
        let room = u16::from_be_bytes(self.take()?);
        if !(kind.least_room()..=MOST_AT_ONCE).contains(&room.into()) {
            return Err(format!("{room} is not a room"));
        }
        let mut fragments = Vec::new();
        loop {
            match u16::from_be_bytes(self.take()?) {
                ENDED => return Ok(FeedCase { kind, first, room, fragments }),
                length if usize::from(length) > MOST_AT_ONCE => return Err(format!("{length} is not a length")),
                length => fragments.push(self.bytes(length.into())?.to_vec()),
            }
        }
    }

    fn take<const N: usize>(&mut self) -> Result<[u8; N], String> {
        Ok(self.bytes(N)?.try_into().expect("so many bytes were taken"))
    }

    fn bytes(&mut self, count: usize) -> Result<&'a [u8], String> {
        let (taken, rest) = self.rest.split_at_checked(count).ok_or("the file is cut")?;
        self.rest = rest;
        Ok(taken)
    }
}

impl Iterator for FeedCases<'_> {
    type Item = Result<FeedCase, String>;

    fn next(&mut self) -> Option<Self::Item> {
        if self.rest.is_empty() {
            return None;
        }
        let case = self.case();
        if case.is_err() {
            self.rest = &[];
        }
        Some(case)
    }
}

/// What is made of the cases of a file, and why it is not whole, if it is not.
pub fn answers(file: &[u8]) -> (String, Result<(), String>) {
    let mut text = String::new();
    for (index, case) in FeedCases::of(file).enumerate() {
        match case {
            Ok(case) => text += &case.answer(),
            Err(message) => return (text, Err(format!("case {}: {message}", index + 1))),
        }
    }
    (text, Ok(()))
}
