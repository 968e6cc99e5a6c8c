//! The shapes of feed case files: logs that no file can hold, since they begin far behind their first byte.

use super::cuts::{file_of, some_way};
use super::log_maker::LogMaker;
use super::random::Random;
use super::traffic::{Call, Habits};
use crate::feed_case::{FeedCase, Kind, MOST_AT_ONCE};
use crate::log::{Field, LOG_END};

pub type FeedShape = fn(u64) -> Vec<u8>;

pub const FEED_SHAPES: [(&str, FeedShape); 3] = [("far", far), ("far-passed", far_passed), ("far-32", far_32)];

/// Short logs, whole and wrong: each byte of each comes to stand at 2^48, and so do the two behind its end.
fn far(seed: u64) -> Vec<u8> {
    let mut random = Random::new(seed);
    let mut cases = Vec::new();
    for log in whole_and_wrong(&mut random) {
        for before in 0..=log.len() + 2 {
            cases.push(any_case(&mut random, LOG_END - before as u64, &log));
        }
    }
    file_of(&cases)
}

/// A value of any length, the largest among them, is passed over where 2^48 is reached: in it, at its ends, or near.
fn far_passed(seed: u64) -> Vec<u8> {
    let mut maker = LogMaker::new(Random::new(seed));
    maker.calls_until(60, &Habits::mixed());
    let begin = maker.log.len();
    let any = maker.random().between(0, u16::MAX.into()) as usize;
    let length = maker.random().pick(&[u16::MAX.into(), any]);
    maker.pass_over(length);
    let end = maker.log.len();
    maker.calls_until(end + 20, &Habits::mixed());
    let within = maker.random().between(begin as u64, end as u64) as usize;
    let LogMaker { mut traffic, log } = maker;
    let places = [begin, begin + 1, begin + 2, begin + 3, within, end - 1, end, end + 1, log.len()];
    let cases: Vec<FeedCase> =
        places.iter().map(|&before| any_case(&mut traffic.random, LOG_END - before as u64, &log)).collect();
    file_of(&cases)
}

/// Each byte of a log comes to stand at 2^32, and logs begin a little above: no offset fits 32 bits.
fn far_32(seed: u64) -> Vec<u8> {
    let mut random = Random::new(seed);
    let logs = whole_and_wrong(&mut random);
    let mut cases = Vec::new();
    for log in &logs {
        let before = random.between(0, log.len() as u64);
        let above = random.between(0, 70_000);
        for first in [(1 << 32) - before, (1 << 32) + above] {
            cases.push(any_case(&mut random, first, log));
        }
    }
    file_of(&cases)
}

/// A case with a listing or a report.
fn any_case(random: &mut Random, first: u64, log: &[u8]) -> FeedCase {
    let kind = random.pick(&[Kind::Listing, Kind::Report]);
    let most = random.pick(&[4, 30, MOST_AT_ONCE]);
    let room = random.pick(&[kind.least_room(), MOST_AT_ONCE]) as u16;
    FeedCase { kind, first, room, fragments: some_way(random, log, most) }
}

/// A log with each kind of field; the same log with one of its fields wrong: its tag, its length, an L out of range and
/// a second L; the log cut in its last field, and nothing at all.
fn whole_and_wrong(random: &mut Random) -> Vec<Vec<u8>> {
    let (log, begins) = each_kind(random);
    let mut logs = vec![log.clone()];
    let mut with = |at: usize, byte: u8| {
        let mut wrong = log.clone();
        wrong[at] = byte;
        logs.push(wrong);
    };
    for &begin in &begins {
        let unknown = random.between(7, 127) as u8;
        with(begin, random.pick(&[0, 7, 127, unknown]));
        with(begin + 1, 1);
        with(begin + 2, 11);
    }
    // The last byte of an L of 100 or 64 makes it too small, the one before too large.
    with(4, 63);
    with(3, 9);
    with(begins[1], 6);
    logs.extend([log[..log.len() - 1].to_vec(), Vec::new()]);
    logs
}

/// The fields come in any order behind the open; the second list is where each begins.
fn each_kind(random: &mut Random) -> (Vec<u8>, Vec<usize>) {
    let mut maker = LogMaker::with_largest(Random::new(random.any()), random.pick(&[64, 100]));
    let mut begins = vec![0, maker.log.len()];
    maker.open(7, 65_536);
    let mut left = vec![
        Some(Call::Record { block: 7, number: 1, length: 60 }),
        Some(Call::Rename { old: 7, new: 8 }),
        Some(Call::Serve),
        Some(Call::Close { block: 7 }),
        None,
    ];
    while !left.is_empty() {
        begins.push(maker.log.len());
        let at = random.between(0, left.len() as u64 - 1) as usize;
        match left.remove(at) {
            Some(call) => drop(maker.take(call)),
            None => Field::Other { tag: 200, value: &random.bytes(5) }.write(&mut maker.log),
        }
    }
    (maker.log, begins)
}
