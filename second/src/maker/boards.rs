//! Boards for the clauses of 'spoilt': for each clause some that break just that one, and their neighbours on the
//! allowed side.
//!
//! Each is one of five base boards with a few lines of the case text laid over it.

use crate::numbers::{LANE_DEPTH, PLACES};
use crate::spoilt::Clause::{self, *};

pub struct Trial {
    /// The clause that the board tries.
    pub clause: Clause,
    /// The clauses that it breaks: none for a neighbour on the allowed side.
    pub broken: Vec<Clause>,
    /// Raw lines and conveniences of the case text.
    pub lines: String,
}

fn fresh() -> String {
    "largest 100\n".to_string()
}

/// Clock 5: three blocks wait in class 3, the first of them pending, one in class 2, pending, and one in class 16.
/// Place 4 is open with an empty lane. The lane of place 2 is full. Shares are held in three classes, and the whole
/// line is taken.
fn waiting() -> String {
    let mut lines = "largest 100\nclock 5
number 0 11\nshare 0 8192\ncount 0 2\ndeficit 0 6553599\nentry 0 1 1\nentry 1 2 100
number 1 12\nshare 1 8192\nstart 1 31\ncount 1 1\nready 1 8\nentry 63 3 100
number 2 13\nshare 2 8192\nstart 2 5\ncount 2 32\ndeficit 2 1\nready 2 8
number 3 14\nshare 3 16384\nstart 3 9\ncount 3 1\nready 3 4\nentry 105 5 50
number 4 4294967295\nshare 4 4096\nstart 4 31
number 9 16\nshare 9 1\ncount 9 1\nready 9 65536\nentry 288 6 77
held 2 16384\nheld 4 4094\nheld 16 1
order 3 0 1 2\norder 2 3\norder 16 9\n"
        .to_string();
    for entry in 0..LANE_DEPTH {
        lines += &format!("entry {} {} 60\n", 2 * LANE_DEPTH + entry, 100 + entry);
    }
    lines + "sets\n"
}

/// Clock 4: the slot of place 1 is open, and its front needs all that is left. Its class has one more block, not yet
/// ready.
fn in_slot() -> String {
    "largest 64\nclock 4
number 0 6\nshare 0 16384\ncount 0 1\nready 0 8\nentry 0 1 64
number 1 7\nshare 1 16384\nstart 1 3\ncount 1 2\nentry 35 2 64\nentry 36 3 1
number 2 8\nshare 2 8192
slot 2\nleft 4194304\norder 2 0\nsets\n"
        .to_string()
}

/// The last slot that may begin is open: clock 2^62 - 1, one block with the whole line.
fn in_last_slot() -> String {
    "largest 100\nclock 4611686018427387903
number 0 5\nshare 0 65536\ncount 0 2\nentry 0 1 100\nentry 1 2 100
slot 1\nleft 6553600\nsets\n"
        .to_string()
}

/// Clock 63: all 64 places wait in class 6, in the order of their places, the first ten of them pending.
fn crowded() -> String {
    let mut lines = "largest 2048\nclock 63\n".to_string();
    for place in 0..PLACES {
        let ready = if place < 10 { 0 } else { 64 };
        lines +=
            &format!("number {place} {}\nshare {place} 1024\ncount {place} 1\nready {place} {ready}\n", 1_000 + place);
        lines += &format!("entry {} {place} 2048\n", LANE_DEPTH * place);
    }
    let places: Vec<String> = (0..PLACES).map(|place| place.to_string()).collect();
    lines + &format!("order 6 {}\nsets\n", places.join(" "))
}

fn breaks(clause: Clause, base: fn() -> String, over: &str) -> Trial {
    Trial { clause, broken: vec![clause], lines: laid_over(base, over) }
}

fn keeps(clause: Clause, base: fn() -> String, over: &str) -> Trial {
    Trial { clause, broken: Vec::new(), lines: laid_over(base, over) }
}

/// The lines over a base board are separated by semicolons.
fn laid_over(base: fn() -> String, over: &str) -> String {
    base() + &over.replace("; ", "\n") + "\n"
}

/// A share over the line is out of its range and takes more than the line, so it can't break one clause alone.
fn share_over_the_line() -> Trial {
    Trial { clause: Shares, broken: vec![Shares, TotalShare], lines: laid_over(fresh, "number 0 5; share 0 65537") }
}

pub fn trials() -> Vec<Trial> {
    vec![
        keeps(Spelling, fresh, ""),
        keeps(Spelling, waiting, ""),
        keeps(Spelling, in_slot, ""),
        keeps(Spelling, in_last_slot, ""),
        keeps(Spelling, crowded, ""),
        breaks(Spelling, waiting, "head 3 65"),
        breaks(Spelling, waiting, "head 3 255"),
        breaks(Spelling, crowded, "next 63 65"),
        breaks(Spelling, crowded, "next 63 1"),
        breaks(Spelling, crowded, "next 63 64"),
        breaks(Spelling, crowded, "tail 6 63"),
        breaks(Spelling, crowded, "tail 6 0"),
        breaks(Spelling, crowded, "head 6 0"),
        breaks(Spelling, waiting, "next 2 2"),
        breaks(Spelling, waiting, "next 3 1"),
        breaks(Spelling, waiting, "head 4 1; tail 4 3"),
        breaks(Spelling, waiting, "next 4 1"),
        breaks(Spelling, waiting, "next 63 64"),
        breaks(Spelling, fresh, "tail 5 1"),
        breaks(Spelling, in_slot, "next 1 1"),
        breaks(Spelling, in_slot, "slot 65"),
        breaks(Spelling, in_slot, "slot 255"),
        keeps(
            Spelling,
            fresh,
            "number 63 5; share 63 65536; count 63 1; entry 2016 1 100; slot 64; left 6553600; sets",
        ),
        keeps(
            Spelling,
            fresh,
            "number 63 5; share 63 65536; count 63 1; entry 2016 1 100; ready 63 1; order 0 63; sets",
        ),
        breaks(Largest, fresh, "largest 0"),
        breaks(Largest, fresh, "largest 63"),
        keeps(Largest, fresh, "largest 64"),
        keeps(Largest, fresh, "largest 2048"),
        breaks(Largest, fresh, "largest 2049"),
        breaks(Largest, fresh, "largest 4294967295"),
        breaks(Largest, waiting, "largest 2049"),
        keeps(Largest, waiting, "largest 2048"),
        keeps(Clock, fresh, "clock 4611686018427387904"),
        breaks(Clock, fresh, "clock 4611686018427387905"),
        breaks(Clock, fresh, "clock 18446744073709551615"),
        keeps(Clock, waiting, "clock 4611686018427387904; sets"),
        breaks(Clock, waiting, "clock 4611686018427387905; sets"),
        breaks(Clock, waiting, "clock 18446744073709551615; sets"),
        breaks(Numbers, waiting, "number 1 11"),
        keeps(Numbers, waiting, "number 1 10"),
        breaks(Numbers, waiting, "number 0 4294967295"),
        keeps(Numbers, waiting, "number 0 4294967294"),
        keeps(Numbers, waiting, "number 0 1"),
        breaks(Numbers, crowded, "number 63 1000"),
        keeps(Numbers, crowded, "number 63 999"),
        breaks(Shares, waiting, "share 4 0"),
        keeps(Shares, waiting, "share 4 1"),
        breaks(Shares, fresh, "number 0 5"),
        keeps(Shares, fresh, "number 0 5; share 0 1"),
        keeps(Shares, fresh, "number 0 5; share 0 65536"),
        share_over_the_line(),
        keeps(StartAndCount, waiting, "start 4 0"),
        breaks(StartAndCount, waiting, "start 4 32"),
        breaks(StartAndCount, waiting, "start 4 256"),
        breaks(StartAndCount, waiting, "start 4 65535"),
        keeps(StartAndCount, waiting, "start 2 31"),
        breaks(StartAndCount, waiting, "start 2 32"),
        keeps(StartAndCount, waiting, "count 2 31"),
        breaks(StartAndCount, waiting, "count 2 33"),
        breaks(StartAndCount, waiting, "count 2 288"),
        breaks(StartAndCount, waiting, "count 2 65535"),
        keeps(Lengths, waiting, "entry 64 1 1"),
        breaks(Lengths, waiting, "entry 64 1 0"),
        keeps(Lengths, waiting, "entry 95 1 100"),
        breaks(Lengths, waiting, "entry 95 1 101"),
        breaks(Lengths, waiting, "entry 63 3 65535"),
        keeps(Lengths, waiting, "entry 2 7 65535; entry 62 7 101; entry 32 7 0; entry 2047 1 65535"),
        breaks(Lengths, in_slot, "entry 35 2 0"),
        breaks(Lengths, in_slot, "entry 36 3 65"),
        keeps(Lengths, in_slot, "entry 36 3 64"),
        keeps(Deficits, waiting, "deficit 0 6553599"),
        breaks(Deficits, waiting, "deficit 0 6553600"),
        breaks(Deficits, waiting, "deficit 9 18446744073709551615"),
        breaks(Deficits, waiting, "deficit 4 1"),
        keeps(Deficits, in_slot, "deficit 0 4194303"),
        breaks(Deficits, in_slot, "deficit 0 4194304"),
        breaks(Deficits, in_slot, "deficit 1 1"),
        breaks(Deficits, in_slot, "deficit 2 1"),
        breaks(NotInUse, waiting, "share 20 1"),
        keeps(NotInUse, fresh, "number 20 9; share 20 1"),
        breaks(NotInUse, waiting, "deficit 20 1"),
        breaks(NotInUse, waiting, "start 20 1"),
        keeps(NotInUse, fresh, "number 20 9; share 20 1; start 20 1"),
        breaks(NotInUse, waiting, "count 20 1"),
        breaks(NotInUse, waiting, "ready 20 8"),
        breaks(NotInUse, waiting, "ready 4 16"),
        breaks(NotInUse, in_slot, "ready 1 4"),
        breaks(NotInUse, fresh, "left 1"),
        breaks(NotInUse, waiting, "left 18446744073709551615"),
        keeps(TotalShare, waiting, "held 16 0"),
        breaks(TotalShare, waiting, "held 16 2"),
        breaks(TotalShare, waiting, "held 0 4294967295; held 1 4294967295"),
        breaks(TotalShare, crowded, "held 6 1"),
        breaks(TotalShare, crowded, "share 5 1025"),
        keeps(TotalShare, crowded, "share 5 1025; share 6 1024; share 7 512; count 7 0; ready 7 0; next 6 9; next 7 0"),
        breaks(TotalShare, fresh, "number 0 5; share 0 32768; number 1 6; share 1 32769"),
        keeps(TotalShare, fresh, "number 0 5; share 0 32767; number 1 6; share 1 32769"),
        breaks(HeldShares, fresh, "held 3 1"),
        breaks(HeldShares, fresh, "number 0 5; share 0 1; held 16 65535"),
        keeps(
            HeldShares,
            fresh,
            "number 0 5; share 0 1; count 0 1; entry 0 1 1; ready 0 65536; order 16 0; held 16 65535; sets",
        ),
        keeps(HeldShares, in_slot, "held 0 1"),
        keeps(HeldShares, in_last_slot, "share 0 32768; held 1 32768; sets"),
        breaks(Orders, waiting, "order 3 0 1; ready 2 0; next 2 0; sets"),
        breaks(Orders, waiting, "order 4 4; sets"),
        breaks(Orders, waiting, "order 4 20; sets"),
        breaks(Orders, waiting, "order 2; order 4 3; ready 3 0; sets"),
        breaks(Orders, waiting, "order 2 3 9; order 16; ready 9 8; sets"),
        keeps(Orders, waiting, "order 3 0 2 1; sets"),
        breaks(Orders, in_slot, "order 2 0 1; ready 1 8; sets"),
        breaks(Orders, in_slot, "slot 0; left 0; sets"),
        keeps(Orders, in_slot, "slot 0; left 0; order 2 0 1; ready 1 8; sets"),
        breaks(ReadyTimes, waiting, "ready 1 4"),
        keeps(ReadyTimes, waiting, "ready 1 0"),
        breaks(ReadyTimes, waiting, "ready 1 7"),
        breaks(ReadyTimes, waiting, "ready 0 8; ready 1 0; sets"),
        keeps(ReadyTimes, waiting, "ready 0 8; sets"),
        breaks(ReadyTimes, waiting, "ready 2 16"),
        keeps(ReadyTimes, waiting, "clock 8; ready 2 16; sets"),
        breaks(ReadyTimes, waiting, "clock 7; ready 2 16; sets"),
        breaks(ReadyTimes, waiting, "ready 9 131072"),
        keeps(ReadyTimes, waiting, "ready 9 0; sets"),
        breaks(ReadyTimes, waiting, "ready 9 32768"),
        breaks(ReadyTimes, waiting, "ready 9 18446744073709486080"),
        breaks(ReadyTimes, crowded, "ready 63 128"),
        keeps(ReadyTimes, crowded, "clock 64; ready 63 128; sets"),
        breaks(ReadyTimes, crowded, "ready 30 0"),
        keeps(ReadyTimes, crowded, "ready 10 0"),
        breaks(Slot, in_slot, "left 4194303"),
        keeps(Slot, in_slot, "left 4194304"),
        keeps(Slot, in_slot, "left 12582911"),
        breaks(Slot, in_slot, "left 12582912"),
        breaks(Slot, in_slot, "left 18446744073709551615"),
        breaks(Slot, in_slot, "left 0"),
        breaks(Slot, in_slot, "count 1 0"),
        keeps(Slot, in_slot, "count 1 1"),
        breaks(Slot, fresh, "slot 1; left 6553600"),
        breaks(Slot, in_last_slot, "clock 4611686018427387904"),
        keeps(Slot, in_last_slot, "clock 4611686018427387902"),
        breaks(ClassSets, fresh, "active 1"),
        breaks(ClassSets, fresh, "pending 1"),
        breaks(ClassSets, fresh, "active 131072"),
        keeps(ClassSets, waiting, "active 65548"),
        breaks(ClassSets, waiting, "active 65544"),
        breaks(ClassSets, waiting, "active 12"),
        breaks(ClassSets, waiting, "active 65564"),
        breaks(ClassSets, waiting, "pending 4"),
        breaks(ClassSets, waiting, "pending 65548"),
        breaks(ClassSets, waiting, "pending 2147483660"),
        keeps(ClassSets, waiting, "pending 12"),
        breaks(ClassSets, in_slot, "active 0"),
        breaks(ClassSets, in_slot, "pending 4"),
        keeps(ClassSets, in_slot, "active 4; pending 0"),
        breaks(ClassSets, in_slot, "clock 8"),
        keeps(ClassSets, in_slot, "clock 8; pending 4"),
    ]
}
