//! Logs cut into fragments, and what feed cases are a test of.

use std::collections::BTreeSet;

use super::random::Random;
use crate::feed_case::{FeedCase, Kind, MOST_AT_ONCE};
use crate::log::{Reader, FIRST_PASSED_OVER, HEAD_BYTES};

/// Logs up to this length are fed byte by byte too, and those up to the next cut in two at each of their bytes.
const MOST_BYTE_BY_BYTE: usize = 2_000;
const MOST_IN_TWO: usize = 200;

/// A file with feed cases of one log, cut in several ways.
pub fn cuts(kind: Kind, seed: u64, log: &[u8]) -> Vec<u8> {
    let mut random = Random::new(seed);
    let case = |room: usize, fragments| FeedCase { kind, first: 0, room: room as u16, fragments };
    let any_room = random.between(kind.least_room() as u64, MOST_AT_ONCE as u64) as usize;
    let mut cases = vec![
        case(kind.least_room(), some_way(&mut random, log, 24)),
        case(any_room, some_way(&mut random, log, MOST_AT_ONCE)),
        case(MOST_AT_ONCE, some_way(&mut random, log, 300)),
    ];
    if log.len() <= MOST_BYTE_BY_BYTE {
        cases.push(case(any_room, log.iter().map(|&byte| vec![byte]).collect()));
    }
    if log.len() <= MOST_IN_TWO {
        cases.extend((0..=log.len()).map(|at| case(kind.least_room(), vec![log[..at].to_vec(), log[at..].to_vec()])));
    }
    file_of(&cases)
}

pub fn file_of(cases: &[FeedCase]) -> Vec<u8> {
    let mut file = Vec::new();
    cases.iter().for_each(|case| case.write(&mut file));
    file
}

/// Fragments of up to so many bytes, mostly short or as long as they may be, with empty ones among them and at the end.
/// A large log has longer ones, so that they are some thousand at most.
pub fn some_way(random: &mut Random, mut log: &[u8], most: usize) -> Vec<Vec<u8>> {
    let most = most.max(log.len() / 1_000);
    let mut fragments = Vec::new();
    loop {
        if random.percent(20) {
            fragments.push(Vec::new());
        }
        if log.is_empty() {
            return fragments;
        }
        let any = random.between(1, most as u64) as usize;
        let length = random.pick(&[1, 2, 3, any, any, most]).min(log.len());
        let (fragment, rest) = log.split_at(length);
        fragments.push(fragment.to_vec());
        log = rest;
    }
}

/// The stories of a case, by name: where in a field its fragments meet, and what is special about them.
pub fn stories(case: &FeedCase) -> BTreeSet<&'static str> {
    let log = case.joined();
    let meetings = meetings(case);
    let mut stories = BTreeSet::new();
    for (begin, end) in spans(&log) {
        for &at in meetings.iter().filter(|&&at| begin <= at && at < end) {
            stories.insert(match at - begin {
                0 => "between-fields",
                within if within < HEAD_BYTES => "in-head",
                _ if log[begin] >= FIRST_PASSED_OVER => "in-passed-over",
                _ => "in-value",
            });
        }
    }
    let lengths: BTreeSet<usize> = case.fragments.iter().map(Vec::len).collect();
    let all = [
        ("empty-fragment", lengths.contains(&0)),
        ("largest-fragment", lengths.contains(&MOST_AT_ONCE)),
        ("byte-by-byte", log.len() > 1 && lengths.iter().all(|&length| length == 1)),
        ("no-fragment", lengths.is_empty()),
        ("least-room", usize::from(case.room) == case.kind.least_room()),
        ("most-room", usize::from(case.room) == MOST_AT_ONCE),
    ];
    stories.extend(all.into_iter().filter(|(_, told)| *told).map(|(name, _)| name));
    stories
}

/// Where two fragments meet that have bytes.
fn meetings(case: &FeedCase) -> BTreeSet<usize> {
    let mut fed = 0;
    let ends = case.fragments.iter().map(|fragment| {
        fed += fragment.len();
        fed
    });
    ends.filter(|&end| end > 0).collect()
}

/// Where the whole fields of a log begin and end.
fn spans(log: &[u8]) -> Vec<(usize, usize)> {
    let Ok((_, mut reader)) = Reader::new(log, 0).begin() else {
        return Vec::new();
    };
    let mut spans = vec![(0, reader.read())];
    while let Some(Ok(_)) = reader.next() {
        let (_, begin) = spans[spans.len() - 1];
        spans.push((begin, reader.read()));
    }
    spans
}
