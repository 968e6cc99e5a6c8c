//! The shapes of logs that are made for their reports, and of report cases.

use super::case_shapes::CaseShape;
use super::log_maker::LogMaker;
use super::log_shapes::LogShape;
use super::random::Random;
use super::traffic::{Call, Habits};
use crate::account::MOST_CREDIT;
use crate::log_text;
use crate::numbers::{credit, CLASSES, PARTS_PER_BYTE, WHOLE_LINE};

pub const REPORT_SHAPES: [(&str, LogShape); 8] = [
    ("open-slot", open_slot),
    ("renamed", renamed),
    ("reopened", reopened),
    ("emptied", emptied),
    ("lost", lost),
    ("idle", idle),
    ("deep", deep),
    ("cut", cut),
];

pub const REPORT_CASE_SHAPES: [(&str, CaseShape); 1] = [("near-full", near_full)];

/// A log of some thousand bytes in which blocks open and close.
fn some_traffic(seed: u64) -> LogMaker {
    let mut maker = LogMaker::new(Random::new(seed));
    let bytes = maker.random().between(500, 5_000) as usize;
    maker.calls_until(bytes, &Habits::mixed());
    maker
}

/// The log ends in a slot that is still open.
fn open_slot(seed: u64) -> Vec<u8> {
    let mut maker = some_traffic(seed);
    while maker.traffic.engine.slot.is_none() {
        for block in maker.open_blocks() {
            maker.take(Call::Record { block, number: 1, length: 1 });
        }
        maker.open(1, 1);
        maker.take(Call::Serve);
    }
    maker.log
}

/// Blocks go on under other numbers, many of them while their slot is open, some twice.
fn renamed(seed: u64) -> Vec<u8> {
    let mut maker = LogMaker::new(Random::new(seed));
    let habits = Habits { rename: 15, close: 3, numbers: 12, ..Habits::mixed() };
    while maker.log.len() < 5_000 {
        maker.any_call(&habits);
        let Some(slot) = maker.traffic.engine.slot else {
            continue;
        };
        for _ in 0..maker.random().between(0, 2) {
            let old = maker.number_on(slot.place);
            let new = maker.random().between(1, 40) as u32;
            maker.take(Call::Rename { old, new });
        }
    }
    maker.log
}

/// All numbers are closed and opened again, in another order and so mostly on other places, with other shares.
fn reopened(seed: u64) -> Vec<u8> {
    let mut maker = LogMaker::new(Random::new(seed));
    for _ in 0..maker.random().between(2, 5) {
        maker.close_all();
        let mut numbers: Vec<u32> = (1..=6).collect();
        while !numbers.is_empty() {
            let at = maker.random().between(0, numbers.len() as u64 - 1) as usize;
            let block = numbers.remove(at);
            let share = maker.random().between(1, u64::from(WHOLE_LINE) / 6) as u32;
            maker.open(block, share);
        }
        let bytes = maker.log.len() + maker.random().between(300, 1_500) as usize;
        maker.busy_until(bytes);
    }
    maker.log
}

/// Every block is closed at the end, so the report is empty.
fn emptied(seed: u64) -> Vec<u8> {
    let mut maker = some_traffic(seed);
    maker.close_all();
    maker.log
}

/// Credits of nearly 2L for lanes of one short record: most of a slot is lost.
fn lost(seed: u64) -> Vec<u8> {
    let mut maker = LogMaker::new(Random::new(seed));
    for class in 2..CLASSES {
        maker.open(class as u32, (1 << (17 - class)) - 1);
    }
    while maker.log.len() < 4_000 {
        for block in maker.open_blocks() {
            let length = maker.random().pick(&[1, 1, 2, 60]);
            maker.take(Call::Record { block, number: block, length });
        }
        maker.serve_until_empty();
    }
    maker.log
}

/// Blocks that never wait stand between others that do.
fn idle(seed: u64) -> Vec<u8> {
    let mut maker = LogMaker::new(Random::new(seed));
    for block in 1..=12 {
        let share = maker.random().between(1, u64::from(WHOLE_LINE) / 12) as u32;
        maker.open(block, share);
    }
    while maker.log.len() < 3_000 {
        let block = 3 * maker.random().between(1, 4) as u32;
        maker.record_for(block);
        if maker.random().percent(70) {
            maker.take(Call::Serve);
        }
    }
    maker.log
}

/// One block has some 2,500 slots: nearly every record needs the whole credit of one.
fn deep(seed: u64) -> Vec<u8> {
    let mut random = Random::new(seed);
    let largest = random.pick(&[64, 100, 2_048]);
    let mut maker = LogMaker::with_largest(random, largest);
    let class = maker.random().between(0, CLASSES as u64 - 1);
    maker.open(1, WHOLE_LINE >> class);
    while maker.log.len() < 40_000 {
        let short = maker.random().between(1, 3) as u16;
        let length = if maker.random().percent(95) { largest as u16 } else { short };
        maker.take(Call::Record { block: 1, number: 1, length });
        maker.take(Call::Serve);
    }
    maker.log
}

/// One of the others, with its last field cut: what was counted before is not reported.
fn cut(seed: u64) -> Vec<u8> {
    let mut random = Random::new(seed);
    let shape: LogShape = random.pick(&[open_slot, renamed, reopened, emptied, lost, idle]);
    let mut log = shape(random.any());
    log.truncate(log.len() - random.between(1, 2) as usize);
    log
}

/// Blocks whose credit given comes to one part under 2^62, to it, or to one over after a few slots, as far as the log
/// goes; some of the logs are broken at their end.
fn near_full(seed: u64) -> String {
    let mut maker = LogMaker::new(Random::new(seed));
    let mut text = String::new();
    for place in 0..4 {
        let share = maker.random().between(1, u64::from(WHOLE_LINE) / 4) as u32;
        maker.open(place + 1, share);
        let of_slot = credit(share, maker.traffic.engine.largest).0;
        let slots_to_come = maker.random().between(1, 25);
        let given = MOST_CREDIT.0 - slots_to_come * of_slot + maker.random().between(0, 2) - 1;
        let most_sent = given / PARTS_PER_BYTE;
        let any = maker.random().between(0, most_sent);
        let sent = maker.random().pick(&[most_sent, any]);
        text += &format!("counts {place} {} {given} {sent} {}\n", given / of_slot, given - sent * PARTS_PER_BYTE);
    }
    let bytes = maker.random().between(200, 900) as usize;
    maker.calls_until(bytes, &Habits { open: 0, close: 0, numbers: 8, ..Habits::mixed() });
    if maker.random().percent(20) {
        maker.log.push(0);
    }
    text + &log_text::text(&maker.log)
}
