//! The shapes of logs.

use super::log_maker::LogMaker;
use super::random::Random;
use super::traffic::{renaming_story, Call, Habits, STORY_LARGEST};
use crate::log::{Field, FIRST_PASSED_OVER, HEAD_BYTES};
use crate::numbers::{CLASSES, LANE_DEPTH, PLACES, WHOLE_LINE};

pub type LogShape = fn(u64) -> Vec<u8>;

pub const LOG_SHAPES: [(&str, LogShape); 30] = [
    ("tiny", tiny),
    ("busy4", |seed| busy(seed, 4, 20_000)),
    ("busy16", |seed| busy(seed, 16, 20_000)),
    ("busy64", |seed| busy(seed, PLACES, 24_000)),
    ("churn", churn),
    ("renames", renames),
    ("full", full),
    ("held", held),
    ("classes", classes),
    ("powers", powers),
    ("shares", shares),
    ("places", places),
    ("largest64", |seed| mixed(seed, 64)),
    ("largest2048", |seed| mixed(seed, 2_048)),
    ("bad", bad),
    ("passed", passed),
    ("passed-large", passed_large),
    ("large", large),
    ("round", |seed| padded(seed, round_length(seed))),
    ("changed", changed),
    ("broken-empty", |_| Vec::new()),
    ("broken-first", broken_first),
    ("broken-largest", broken_largest),
    ("broken-second-largest", broken_second_largest),
    ("broken-tag", broken_tag),
    ("broken-length", broken_length),
    ("broken-cut", broken_cut),
    ("broken-past-end", broken_past_end),
    ("broken-large", broken_large),
    ("broken-round", broken_round),
];

fn tiny(seed: u64) -> Vec<u8> {
    let mut maker = LogMaker::new(Random::new(seed));
    let bytes = maker.random().between(5, 200) as usize;
    maker.calls_until(bytes, &Habits { numbers: 3, lowest_class: 0, ..Habits::mixed() });
    maker.log
}

fn mixed(seed: u64, largest: u32) -> Vec<u8> {
    let mut maker = LogMaker::with_largest(Random::new(seed), largest);
    maker.calls_until(12_000, &Habits::mixed());
    maker.log
}

fn busy(seed: u64, blocks: usize, bytes: usize) -> Vec<u8> {
    let mut maker = LogMaker::new(Random::new(seed));
    for block in 1..=blocks as u32 {
        let share = maker.random().between(1, u64::from(WHOLE_LINE) / blocks as u64) as u32;
        maker.open(block, share);
        for _ in 0..maker.random().between(2, 6) {
            maker.record_for(block);
        }
    }
    maker.busy_until(bytes);
    maker.log
}

/// Few numbers for many opens, closes and renames, so that unknown and repeated ones are common.
fn churn(seed: u64) -> Vec<u8> {
    let mut maker = LogMaker::new(Random::new(seed));
    let habits = Habits {
        open: 15,
        rename: 10,
        close: 15,
        record: 30,
        serve: 30,
        numbers: 12,
        lowest_class: 2,
        ..Habits::mixed()
    };
    maker.calls_until(12_000, &habits);
    maker.log
}

fn renames(seed: u64) -> Vec<u8> {
    let mut maker = LogMaker::with_largest(Random::new(seed), STORY_LARGEST);
    for call in renaming_story(seed) {
        maker.take(call);
    }
    maker.log
}

fn full(seed: u64) -> Vec<u8> {
    let mut maker = LogMaker::new(Random::new(seed));
    for block in 1..=3 {
        let share = maker.traffic.any_share(2);
        maker.open(block, share);
    }
    for _ in 0..=LANE_DEPTH {
        maker.record_for(2);
    }
    maker.calls_until(
        14_000,
        &Habits { open: 0, rename: 1, close: 1, record: 65, serve: 33, numbers: 3, ..Habits::mixed() },
    );
    maker.log
}

/// The hold of document 01, then shares that are soon exhausted, closed while others wait and opened anew.
fn held(seed: u64) -> Vec<u8> {
    let mut maker = LogMaker::with_largest(Random::new(seed), 100);
    for block in 1..=8 {
        maker.open(block, 8_192);
        maker.take(Call::Record { block, number: block, length: 100 });
    }
    for block in 5..=8 {
        maker.take(Call::Record { block, number: 10 + block, length: 100 });
    }
    maker.take_times(Call::Serve, 4);
    for block in 1..=4 {
        maker.take(Call::Close { block });
    }
    maker.open(9, 32_768);
    maker.take_times(Call::Serve, 4);
    maker.open(9, 32_768);
    maker.calls_until(
        14_000,
        &Habits {
            open: 24,
            rename: 0,
            close: 24,
            record: 22,
            serve: 30,
            numbers: 30,
            lowest_class: 0,
            ..Habits::mixed()
        },
    );
    maker.log
}

/// The whole line for one block, then one block of each other class, so that the clock jumps by every interval.
fn classes(seed: u64) -> Vec<u8> {
    let mut maker = LogMaker::new(Random::new(seed));
    while maker.log.len() < 10_000 {
        maker.open(100, WHOLE_LINE);
        maker.record_for(100);
        maker.record_for(100);
        maker.serve_until_empty();
        maker.take(Call::Close { block: 100 });
        for class in 1..CLASSES {
            maker.open(class as u32, 1 << (16 - class));
            for _ in 0..maker.traffic.random.between(1, 4) {
                maker.record_for(class as u32);
            }
        }
        maker.serve_until_empty();
        for class in 1..CLASSES as u32 {
            maker.take(Call::Close { block: class });
        }
    }
    maker.log
}

/// Shares one under, at and one over the powers of two, the two that are out of range among them.
fn powers(seed: u64) -> Vec<u8> {
    let mut maker = LogMaker::new(Random::new(seed));
    let around = |power: u32| [(1 << power) - 1, 1 << power, (1 << power) + 1];
    let shares: Vec<u32> = (0..=16).flat_map(around).collect();
    let habits = Habits { open: 0, close: 15, ..Habits::mixed() };
    while maker.log.len() < 14_000 {
        let share = maker.random().pick(&shares);
        let block = maker.random().between(1, 24) as u32;
        maker.open(block, share);
        for _ in 0..10 {
            maker.any_call(&habits);
        }
    }
    maker.log
}

/// So many seeds of `shares` in a row have each share once.
pub const SEEDS_OF_SHARES: u32 = 64;

/// Shares one after the other. A block of each waits alone with two records of L bytes, which take two slots: the time
/// between them tells its class. The last block stays open, so that a report has its credit.
fn shares(seed: u64) -> Vec<u8> {
    let mut maker = LogMaker::new(Random::new(seed));
    let length = maker.traffic.engine.largest as u16;
    let count = WHOLE_LINE / SEEDS_OF_SHARES;
    let before = (seed % u64::from(SEEDS_OF_SHARES)) as u32 * count;
    for share in before + 1..=before + count {
        maker.close_all();
        maker.open(1, share);
        maker.take_times(Call::Record { block: 1, number: share, length }, 2);
        maker.serve_until_empty();
    }
    maker.log
}

/// All 64 places taken, and some of them taken anew.
fn places(seed: u64) -> Vec<u8> {
    let mut maker = LogMaker::new(Random::new(seed));
    for block in 1..=PLACES as u32 + 1 {
        let share = maker.random().between(1, 1_000) as u32;
        maker.open(block, share);
    }
    maker.calls_until(14_000, &Habits { open: 14, numbers: 90, lowest_class: 7, ..Habits::mixed() });
    maker.log
}

/// Numbers out of their ranges, among others.
fn bad(seed: u64) -> Vec<u8> {
    let mut maker = LogMaker::new(Random::new(seed));
    maker.calls_until(12_000, &Habits { out_of_range: 40, ..Habits::mixed() });
    maker.log
}

fn passed(seed: u64) -> Vec<u8> {
    let mut maker = LogMaker::new(Random::new(seed));
    while maker.log.len() < 12_000 {
        maker.any_call(&Habits::mixed());
        if maker.random().percent(30) {
            let any = maker.random().between(0, 400) as usize;
            let length = maker.random().pick(&[0, 1, 2, any]);
            maker.pass_over(length);
        }
    }
    maker.log
}

/// A log of exactly this many bytes.
fn padded(seed: u64, bytes: usize) -> Vec<u8> {
    let mut maker = LogMaker::new(Random::new(seed));
    for block in 1..=10 {
        let share = maker.traffic.any_share(4);
        maker.open(block, share);
    }
    maker.busy_until(bytes - 100);
    let length = bytes - maker.log.len() - HEAD_BYTES;
    maker.pass_over(length);
    maker.log
}

/// A length at or beside a power of two, where a count of 12, 15 or 16 bits begins anew.
fn round_length(seed: u64) -> usize {
    let mut random = Random::new(seed);
    let power = random.pick(&[1 << 12, 1 << 15, 1 << 16, 1 << 17]);
    random.pick(&[power - 1, power, power + 1])
}

/// Values to be passed over of all sizes up to the largest, some of them one after the other.
fn passed_large(seed: u64) -> Vec<u8> {
    let mut maker = LogMaker::new(Random::new(seed));
    for _ in 0..maker.random().between(2, 4) {
        let bytes = maker.log.len() + maker.random().between(0, 400) as usize;
        maker.calls_until(bytes, &Habits::mixed());
        let any = maker.random().between(400, u16::MAX.into()) as usize;
        let length = maker.random().pick(&[4_095, 4_096, 0x7fff, 0x8000, 0xff00, 0xfffe, 0xffff, any]);
        maker.pass_over(length);
    }
    maker.calls_until(maker.log.len() + 200, &Habits::mixed());
    maker.log
}

/// Some 100,000 bytes of traffic.
fn large(seed: u64) -> Vec<u8> {
    let mut maker = LogMaker::new(Random::new(seed));
    let bytes = maker.random().between(90_000, 110_000) as usize;
    maker.calls_until(bytes, &Habits { out_of_range: 2, numbers: 40, lowest_class: 3, ..Habits::mixed() });
    maker.log
}

/// A valid log with bytes changed, cut and inserted after the L field.
fn changed(seed: u64) -> Vec<u8> {
    let mut random = Random::new(seed);
    let shape: LogShape = random.pick(&[tiny, churn, held, passed, places]);
    let mut log = shape(random.any());
    let after_largest = HEAD_BYTES + 2;
    for _ in 0..random.between(1, 8) {
        let at = random.between(after_largest as u64, log.len() as u64) as usize;
        let end = (at + random.between(1, 20) as usize).min(log.len());
        match random.between(0, 3) {
            0 => drop(log.drain(at..end)),
            1 => {
                let count = random.between(1, 20) as usize;
                let bytes = random.bytes(count);
                drop(log.splice(at..at, bytes));
            }
            2 if at < log.len() => log[at] = random.any() as u8,
            _ if at < log.len() => log[at] ^= 1 << random.between(0, 7),
            _ => log.push(random.any() as u8),
        }
    }
    log
}

/// A log with some calls, to be broken off.
fn begun(seed: u64) -> LogMaker {
    let mut maker = LogMaker::new(Random::new(seed));
    let bytes = maker.random().between(5, 900) as usize;
    maker.calls_until(bytes, &Habits::mixed());
    maker
}

/// Fields that come after a broken one must not be played.
fn go_on(mut maker: LogMaker) -> Vec<u8> {
    let bytes = maker.log.len() + maker.random().between(0, 200) as usize;
    maker.calls_until(bytes, &Habits::mixed());
    maker.log
}

/// The first field is not L: another one, or one that would be passed over later.
fn broken_first(seed: u64) -> Vec<u8> {
    let mut maker = begun(seed);
    let rest = std::mem::take(&mut maker.log);
    let call = maker.random().pick(&[Call::Open { block: 1, share: 1 }, Call::Close { block: 1 }, Call::Serve]);
    if maker.random().percent(50) {
        maker.pass_over(4);
    } else {
        maker.take(call);
    }
    maker.log.extend(rest);
    maker.log
}

/// An L outside its range, or with a wrong length.
fn broken_largest(seed: u64) -> Vec<u8> {
    let mut maker = begun(seed);
    let rest = maker.log.split_off(HEAD_BYTES + 2);
    maker.log.clear();
    let largest = maker.random().pick(&[0, 1, 63, 2_049, u16::MAX]);
    let length = maker.random().pick(&[0, 1, 3, 4]);
    if maker.random().percent(50) {
        Field::Largest { largest }.write(&mut maker.log);
    } else {
        maker.any_field(6, length);
    }
    maker.log.extend(rest);
    maker.log
}

fn broken_second_largest(seed: u64) -> Vec<u8> {
    let mut maker = begun(seed);
    let largest = maker.random().pick(&[0, 64, 100, 2_048, 2_049]);
    Field::Largest { largest }.write(&mut maker.log);
    go_on(maker)
}

/// A tag that means nothing.
fn broken_tag(seed: u64) -> Vec<u8> {
    let mut maker = begun(seed);
    let unknown = maker.random().between(7, u64::from(FIRST_PASSED_OVER) - 1) as u8;
    let tag = maker.random().pick(&[0, 7, FIRST_PASSED_OVER - 1, unknown]);
    let length = maker.random().pick(&[0, 2, 4, 8, 10]);
    maker.any_field(tag, length);
    go_on(maker)
}

fn broken_length(seed: u64) -> Vec<u8> {
    let mut maker = begun(seed);
    let (tag, right) = maker.random().pick(&[(1, 8), (2, 4), (3, 8), (4, 10), (5, 0)]);
    let any = maker.random().between(0, 40) as usize;
    let lengths: Vec<usize> =
        [right + 1, right + 256, any, 4, 10].into_iter().filter(|&length| length != right).collect();
    let length = maker.random().pick(&lengths);
    maker.any_field(tag, length);
    go_on(maker)
}

/// The last field is cut after its first byte, within its length or within its value.
fn broken_cut(seed: u64) -> Vec<u8> {
    let mut maker = begun(seed);
    let offset = maker.log.len();
    if maker.random().percent(30) {
        maker.pass_over(9);
    } else {
        let call = maker.traffic.any_call(&Habits::mixed());
        maker.take(call);
    }
    let whole = maker.log.len();
    let kept = maker.random().between(offset as u64 + 1, whole as u64 - 1) as usize;
    maker.log.truncate(kept);
    maker.log
}

/// The length of the last field, which is to be passed over, runs past the end by one byte or by many.
fn broken_past_end(seed: u64) -> Vec<u8> {
    let mut maker = begun(seed);
    let tag = maker.random().between(FIRST_PASSED_OVER.into(), u8::MAX.into()) as u8;
    let kept = maker.random().between(0, 300) as usize;
    let length = maker.random().pick(&[kept + 1, kept + 256, 0x8000, 0xffff]);
    let value = maker.log.len() + HEAD_BYTES;
    maker.any_field(tag, length);
    maker.log.truncate(value + kept);
    maker.log
}

/// A broken field whose offset has more than 16 bits, with fields after it.
fn broken_large(seed: u64) -> Vec<u8> {
    let mut maker = LogMaker::new(Random::new(seed));
    maker.calls_until(300, &Habits::mixed());
    maker.pass_over(u16::MAX.into());
    let bytes = maker.log.len() + maker.random().between(0, 300) as usize;
    maker.calls_until(bytes, &Habits::mixed());
    let (tag, length) = maker.random().pick(&[(0, 0), (7, 2), (6, 2), (1, 9), (5, 1), (4, 0xffff)]);
    maker.any_field(tag, length);
    go_on(maker)
}

/// A log of a round length whose last field is cut there. The last field of a padded log has over 80 bytes.
fn broken_round(seed: u64) -> Vec<u8> {
    let bytes = round_length(seed);
    let missing = Random::new(seed).between(1, 80) as usize;
    let mut log = padded(seed, bytes + missing);
    log.truncate(bytes);
    log
}
