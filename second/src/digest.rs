//! One number for everything that a call leaves, so that two programs can be compared by a short line.

use crate::board::{Board, Tables};

const FACTOR: u64 = 65_599;
const MODULUS: u64 = 4_294_967_291;

/// Takes values one by one, each as four parts of 16 bits, high first. No step comes near 2^64.
pub struct Digest {
    value: u64,
}

impl Digest {
    pub fn new() -> Digest {
        Digest { value: 0 }
    }

    pub fn take(&mut self, value: u64) {
        for shift in [48, 32, 16, 0] {
            let part = (value >> shift) & 0xffff;
            self.value = (self.value * FACTOR + part + 1) % MODULUS;
        }
    }

    pub fn value(&self) -> u64 {
        self.value
    }
}

impl Default for Digest {
    fn default() -> Digest {
        Digest::new()
    }
}

/// The digest of a board and its tables, and of a burst's list if there is one.
pub fn digest(board: &Board, tables: &Tables, list: Option<&[u32]>) -> u64 {
    let mut digest = Digest::new();
    board.each_field(|_, _, value| digest.take(value));
    digest.take(tables.numbers.len() as u64);
    tables.numbers.iter().for_each(|&number| digest.take(number.into()));
    digest.take(tables.lengths.len() as u64);
    tables.lengths.iter().for_each(|&length| digest.take(length.into()));
    if let Some(list) = list {
        digest.take(list.len() as u64);
        list.iter().for_each(|&entry| digest.take(entry.into()));
    }
    digest.value()
}
