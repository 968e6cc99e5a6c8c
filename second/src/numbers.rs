//! The fixed numbers of the box, its two units, and the arithmetic of classes, starts and credit.

use std::ops::{Add, Sub};

pub const PLACES: usize = 64;
pub const LANE_DEPTH: usize = 32;
pub const TABLE_ENTRIES: usize = 2_048;
pub const CLASSES: usize = 17;
pub const WHOLE_LINE: u32 = 65_536;
pub const PARTS_PER_BYTE: u64 = 65_536;
/// L is at least this, and no slot has less credit than so many bytes.
pub const LEAST_LARGEST: u32 = 64;
/// No slot begins at this clock or later.
pub const CLOCK_END: u64 = 1 << 62;

/// Bytes of records. Parts are another unit and are never added to these.
#[derive(Clone, Copy, Debug, Default, PartialEq, Eq, PartialOrd, Ord)]
pub struct Bytes(pub u64);

/// Parts of credit: 65,536 of them pay for one byte.
#[derive(Clone, Copy, Debug, Default, PartialEq, Eq, PartialOrd, Ord)]
pub struct Parts(pub u64);

impl Bytes {
    pub fn in_parts(self) -> Parts {
        Parts(self.0 * PARTS_PER_BYTE)
    }
}

/// A unit is added to itself and taken from itself, never from the other.
macro_rules! sums_within {
    ($unit:ident) => {
        impl Add for $unit {
            type Output = $unit;
            fn add(self, other: $unit) -> $unit {
                $unit(self.0 + other.0)
            }
        }

        impl Sub for $unit {
            type Output = $unit;
            fn sub(self, other: $unit) -> $unit {
                $unit(self.0 - other.0)
            }
        }
    };
}

sums_within!(Bytes);
sums_within!(Parts);

pub fn largest_in_range(largest: u32) -> bool {
    (LEAST_LARGEST..=2_048).contains(&largest)
}

pub fn number_in_range(block: u32) -> bool {
    block != 0
}

pub fn share_in_range(share: u32) -> bool {
    (1..=WHOLE_LINE).contains(&share)
}

pub fn length_in_range(length: u16, largest: u32) -> bool {
    length >= 1 && u32::from(length) <= largest
}

/// The class k for which 2^(16-k) <= share < 2^(17-k), if there is one.
pub fn class_of(share: u32) -> Option<usize> {
    (0..CLASSES).find(|class| {
        let least = 1 << (16 - class);
        least <= share && share < 2 * least
    })
}

/// The distance between two starts of a class.
pub fn interval(class: usize) -> u64 {
    1 << class
}

/// The smallest multiple of the class's interval greater than the clock.
/// A start too large for 64 bits reads as the largest number: it is still above every time that a board can hold.
pub fn next_start(class: usize, clock: u64) -> u64 {
    let intervals_begun = (clock / interval(class)).saturating_add(1);
    intervals_begun.saturating_mul(interval(class))
}

/// The bytes that a record of this length uses of the line.
pub fn charged_bytes(length: u16) -> Bytes {
    Bytes(u64::from(length))
}

/// What a record of this length takes from its slot.
pub fn charge(length: u16) -> Parts {
    charged_bytes(length).in_parts()
}

/// The most bytes that one record of the board can use of the line.
pub fn largest_charge(largest: u32) -> Bytes {
    Bytes(u64::from(largest))
}

/// The credit of one slot: share x 2^k x L. A share without a class has none.
pub fn credit(share: u32, largest: u32) -> Parts {
    match class_of(share) {
        Some(class) => Parts(u64::from(share) * interval(class) * largest_charge(largest).0),
        None => Parts(0),
    }
}

/// Every deficit is under this.
pub fn deficit_limit(largest: u32) -> Parts {
    largest_charge(largest).in_parts()
}

/// What is left of an open slot is always under this.
pub fn slot_limit(largest: u32) -> Parts {
    Bytes(3 * largest_charge(largest).0).in_parts()
}

/// The table entry of the j-th record from the front of a place's lane.
pub fn lane_entry(place: usize, start: usize, j: usize) -> usize {
    LANE_DEPTH * place + (start + j) % LANE_DEPTH
}
