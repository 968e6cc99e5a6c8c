//! Random calls that fit the board they are made for: the calls made so far are played beside, to know what is open and
//! what waits.

use super::random::Random;
use crate::codes::code_of;
use crate::engine::{Block, Engine, Record};
use crate::numbers::*;

#[derive(Clone, Copy, Debug, PartialEq, Eq)]
pub enum Call {
    Open { block: u32, share: u32 },
    Rename { old: u32, new: u32 },
    Close { block: u32 },
    Record { block: u32, number: u32, length: u16 },
    Serve,
    Burst { bytes: u64, room: u16 },
}

/// How often each call is made, against the others, and what it is made with.
#[derive(Clone, Copy, Debug)]
pub struct Habits {
    pub open: u64,
    pub rename: u64,
    pub close: u64,
    pub record: u64,
    pub serve: u64,
    pub burst: u64,
    /// Block numbers run from 1 to this.
    pub numbers: u32,
    /// Shares are of this class or a higher one.
    pub lowest_class: usize,
    /// How many calls in a hundred are made with a number out of range.
    pub out_of_range: u64,
}

impl Habits {
    /// A little of everything, but no block with the whole line: it would leave no room for others.
    pub fn mixed() -> Habits {
        Habits {
            open: 8,
            rename: 4,
            close: 8,
            record: 46,
            serve: 34,
            burst: 0,
            numbers: 24,
            lowest_class: 1,
            out_of_range: 0,
        }
    }
}

pub struct Traffic {
    pub random: Random,
    pub engine: Engine,
    last_record: u32,
}

impl Traffic {
    pub fn new(random: Random, largest: u32) -> Traffic {
        Traffic { random, engine: Engine::fresh(largest), last_record: 0 }
    }

    /// Plays a call on the board beside and gives its code.
    pub fn play(&mut self, call: Call) -> u32 {
        match call {
            Call::Open { block, share } => code_of(&self.engine.open(block, share)),
            Call::Rename { old, new } => code_of(&self.engine.rename(old, new)),
            Call::Close { block } => code_of(&self.engine.close(block)),
            Call::Record { block, number, length } => code_of(&self.engine.record(block, Record { number, length })),
            Call::Serve => code_of(&self.engine.serve()),
            Call::Burst { bytes, room } => self.engine.burst(Bytes(bytes), &mut vec![0; room.into()]).stopped_by.code(),
        }
    }

    pub fn any_call(&mut self, habits: &Habits) -> Call {
        let Habits { open, rename, close, record, serve, burst, .. } = *habits;
        let mut draw = self.random.between(1, open + rename + close + record + serve + burst);
        let mut falls_on = |weight: u64| {
            let falls = draw <= weight;
            draw = draw.saturating_sub(weight);
            falls
        };
        if falls_on(open) {
            self.open(habits)
        } else if falls_on(rename) {
            self.rename(habits)
        } else if falls_on(close) {
            self.close(habits)
        } else if falls_on(record) {
            self.record(habits)
        } else if falls_on(serve) {
            Call::Serve
        } else {
            self.burst()
        }
    }

    fn open(&mut self, habits: &Habits) -> Call {
        if self.random.percent(habits.out_of_range) {
            return self.random.pick(&[
                Call::Open { block: 0, share: 1 },
                Call::Open { block: 0, share: 0 },
                Call::Open { block: 1, share: 0 },
                Call::Open { block: 1, share: WHOLE_LINE + 1 },
                Call::Open { block: u32::MAX, share: u32::MAX },
            ]);
        }
        Call::Open { block: self.any_number(habits), share: self.any_share(habits.lowest_class) }
    }

    fn rename(&mut self, habits: &Habits) -> Call {
        let (old, new) = (self.likely_open(habits), self.any_number(habits));
        if self.random.percent(habits.out_of_range) {
            return self.random.pick(&[
                Call::Rename { old, new: 0 },
                Call::Rename { old: 0, new },
                Call::Rename { old: 0, new: 0 },
            ]);
        }
        Call::Rename { old, new }
    }

    fn close(&mut self, habits: &Habits) -> Call {
        if self.random.percent(habits.out_of_range) {
            return Call::Close { block: 0 };
        }
        let empty = self.open_numbers(|block| !block.waits());
        if !empty.is_empty() && self.random.percent(60) {
            return Call::Close { block: self.random.pick(&empty) };
        }
        Call::Close { block: self.likely_open(habits) }
    }

    fn record(&mut self, habits: &Habits) -> Call {
        let block = self.likely_open(habits);
        let largest = self.engine.largest as u16;
        if self.random.percent(habits.out_of_range) {
            let number = self.any_record_number();
            return self.random.pick(&[
                Call::Record { block: 0, number, length: 1 },
                Call::Record { block, number, length: 0 },
                Call::Record { block, number, length: largest + 1 },
                Call::Record { block: 0, number, length: u16::MAX },
            ]);
        }
        self.record_for(block)
    }

    /// A record in range for this block.
    pub fn record_for(&mut self, block: u32) -> Call {
        let largest = self.engine.largest as u16;
        let any_length = self.random.between(1, largest.into()) as u16;
        let length = self.random.pick(&[1, largest - 1, largest, any_length, any_length]);
        Call::Record { block, number: self.any_record_number(), length }
    }

    fn burst(&mut self) -> Call {
        let few = self.random.between(0, 4 * u64::from(self.engine.largest));
        let some = self.random.between(0, 40 * u64::from(self.engine.largest));
        let bytes = self.random.pick(&[few, few, few, some, u64::MAX]);
        let room = self.random.between(0, 12) as u16;
        Call::Burst { bytes, room: self.random.pick(&[room, room, room, 40, 300]) }
    }

    /// Mostly counted up, so that a listing is easy to follow; any number and repeats are allowed.
    fn any_record_number(&mut self) -> u32 {
        if self.random.percent(5) {
            let any = self.random.any() as u32;
            return self.random.pick(&[0, u32::MAX, any, self.last_record]);
        }
        self.last_record += 1;
        self.last_record
    }

    /// A number of an open block most of the time, else any.
    fn likely_open(&mut self, habits: &Habits) -> u32 {
        let open = self.open_numbers(|_| true);
        if open.is_empty() || self.random.percent(8) {
            self.any_number(habits)
        } else {
            self.random.pick(&open)
        }
    }

    fn any_number(&mut self, habits: &Habits) -> u32 {
        if self.random.percent(2) {
            return u32::MAX;
        }
        self.random.between(1, habits.numbers.into()) as u32
    }

    /// A share of any class from the lowest on: each class as likely as another.
    pub fn any_share(&mut self, lowest_class: usize) -> u32 {
        let class = self.random.between(lowest_class as u64, CLASSES as u64 - 1) as usize;
        self.share_of_class(class)
    }

    pub fn share_of_class(&mut self, class: usize) -> u32 {
        let least = 1 << (16 - class);
        let most = (2 * least - 1).min(u64::from(WHOLE_LINE));
        self.random.between(least, most) as u32
    }

    pub fn open_numbers(&self, wanted: impl Fn(&Block) -> bool) -> Vec<u32> {
        self.engine.places.iter().flatten().filter(|block| wanted(block)).map(|block| block.number).collect()
    }
}

/// L of the renaming story.
pub const STORY_LARGEST: u32 = 100;

/// A block renamed while its records wait, while its slot is open, and twice; a second block then takes its first
/// number. All is sent.
pub fn renaming_story(seed: u64) -> Vec<Call> {
    let mut traffic = Traffic::new(Random::new(seed), STORY_LARGEST);
    let mut story = vec![Call::Open { block: 11, share: 24_576 }, Call::Open { block: 12, share: 8_192 }];
    for number in 1..=11 {
        let length = traffic.random.between(30, 70) as u16;
        story.push(Call::Record { block: 11, number, length });
        story.push(Call::Record { block: 12, number: 100 + number, length: 100 });
    }
    story.push(Call::Rename { old: 11, new: 21 });
    for &call in &story {
        traffic.play(call);
    }
    let mut go_on = |call: Call| {
        story.push(call);
        traffic.play(call);
        (traffic.engine.slot.is_some(), traffic.engine.any_waits())
    };
    while let (false, _) = go_on(Call::Serve) {}
    go_on(Call::Rename { old: 21, new: 31 });
    go_on(Call::Serve);
    go_on(Call::Rename { old: 31, new: 41 });
    go_on(Call::Rename { old: 41, new: 51 });
    go_on(Call::Rename { old: 12, new: 11 });
    go_on(Call::Record { block: 12, number: 200, length: 1 });
    go_on(Call::Record { block: 51, number: 201, length: 1 });
    while let (_, true) = go_on(Call::Serve) {}
    go_on(Call::Serve);
    go_on(Call::Close { block: 51 });
    story
}
