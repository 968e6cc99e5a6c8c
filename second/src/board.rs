//! The board as the box holds it in memory: one value of numbers, besides the two lent tables. Any numbers may stand in
//! it.
//!
//! A link is a place plus 1, and 0 is none.

use crate::numbers::{CLASSES, PLACES, TABLE_ENTRIES};

#[derive(Clone, Debug, PartialEq, Eq)]
pub struct Board {
    pub numbers: [u32; PLACES],
    pub shares: [u32; PLACES],
    /// In parts.
    pub deficits: [u64; PLACES],
    pub starts: [u16; PLACES],
    pub counts: [u16; PLACES],
    pub ready: [u64; PLACES],
    /// The link to the place behind in the same class's order.
    pub next: [u8; PLACES],
    /// The links to the first and to the last place of each class's order.
    pub heads: [u8; CLASSES],
    pub tails: [u8; CLASSES],
    pub held: [u32; CLASSES],
    pub largest: u32,
    pub clock: u64,
    /// The sets of classes: bit k is class k.
    pub active: u32,
    pub pending: u32,
    /// The link to the place whose slot is open.
    pub slot: u8,
    /// What is left of the open slot, in parts.
    pub left: u64,
}

impl Board {
    /// The board that a refused making gives. It is spoilt, as its L is 0.
    pub fn all_zeros() -> Board {
        Board {
            numbers: [0; PLACES],
            shares: [0; PLACES],
            deficits: [0; PLACES],
            starts: [0; PLACES],
            counts: [0; PLACES],
            ready: [0; PLACES],
            next: [0; PLACES],
            heads: [0; CLASSES],
            tails: [0; CLASSES],
            held: [0; CLASSES],
            largest: 0,
            clock: 0,
            active: 0,
            pending: 0,
            slot: 0,
            left: 0,
        }
    }

    /// Shows every field in the order of the digest: its word in the case text, its place or class, its value.
    pub fn each_field(&self, mut show: impl FnMut(&'static str, Option<usize>, u64)) {
        show_row("number", &self.numbers, &mut show);
        show_row("share", &self.shares, &mut show);
        show_row("deficit", &self.deficits, &mut show);
        show_row("start", &self.starts, &mut show);
        show_row("count", &self.counts, &mut show);
        show_row("ready", &self.ready, &mut show);
        show_row("next", &self.next, &mut show);
        show_row("head", &self.heads, &mut show);
        show_row("tail", &self.tails, &mut show);
        show_row("held", &self.held, &mut show);
        show("largest", None, self.largest.into());
        show("clock", None, self.clock);
        show("active", None, self.active.into());
        show("pending", None, self.pending.into());
        show("slot", None, self.slot.into());
        show("left", None, self.left);
    }
}

fn show_row<T: Copy + Into<u64>>(
    word: &'static str,
    row: &[T],
    show: &mut impl FnMut(&'static str, Option<usize>, u64),
) {
    for (index, &value) in row.iter().enumerate() {
        show(word, Some(index), value.into());
    }
}

/// The link to a place.
pub fn link_to(place: usize) -> u8 {
    (place + 1) as u8
}

/// The two lent tables. They should have 2,048 entries each, but any length may be lent.
#[derive(Clone, Debug, PartialEq, Eq)]
pub struct Tables {
    pub numbers: Vec<u32>,
    pub lengths: Vec<u16>,
}

impl Tables {
    pub fn all_zeros() -> Tables {
        Tables { numbers: vec![0; TABLE_ENTRIES], lengths: vec![0; TABLE_ENTRIES] }
    }

    pub fn have_right_lengths(&self) -> bool {
        self.numbers.len() == TABLE_ENTRIES && self.lengths.len() == TABLE_ENTRIES
    }
}
