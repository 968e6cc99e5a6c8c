//! The lines of a listing.

use std::fmt::{self, Write};

use crate::engine::Sent;
use crate::log::Stop;
use crate::numbers::Bytes;

#[derive(Clone, Copy, Debug, PartialEq, Eq)]
pub enum Line {
    Open { block: u32, code: u32 },
    Close { block: u32, code: u32 },
    Name { old: u32, new: u32, code: u32 },
    In { record: u32, code: u32 },
    Out(Sent),
    NothingOut { code: u32 },
    End { clock: u64, sent: Bytes, waiting: usize },
    Stopped(Stop),
}

impl fmt::Display for Line {
    fn fmt(&self, out: &mut fmt::Formatter) -> fmt::Result {
        match self {
            Line::Open { block, code } => write!(out, "open {block} {code}"),
            Line::Close { block, code } => write!(out, "close {block} {code}"),
            Line::Name { old, new, code } => write!(out, "name {old} {new} {code}"),
            Line::In { record, code } => write!(out, "in {record} {code}"),
            Line::Out(sent) => write!(out, "out {} {} {} {}", sent.block, sent.record, sent.length, sent.clock),
            Line::NothingOut { code } => write!(out, "out - {code}"),
            Line::End { clock, sent, waiting } => write!(out, "end {clock} {} {waiting}", sent.0),
            Line::Stopped(stop) => write!(out, "{stop}"),
        }
    }
}

impl fmt::Display for Stop {
    fn fmt(&self, out: &mut fmt::Formatter) -> fmt::Result {
        match self {
            Stop::Broken { offset } => write!(out, "broken {offset}"),
            Stop::Long => write!(out, "long"),
        }
    }
}

/// The listing as it is written: every line ends with one byte 10.
pub fn text(lines: &[Line]) -> String {
    let mut text = String::new();
    for line in lines {
        writeln!(text, "{line}").expect("a text takes any line");
    }
    text
}
