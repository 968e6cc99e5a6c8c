//! What the shapes of logs are made with: calls that become fields, and are played beside.

use super::random::Random;
use super::traffic::{Call, Habits, Traffic};
use crate::log::{Field, FIRST_PASSED_OVER};

/// A log under way, with the board that it gives.
pub struct LogMaker {
    pub traffic: Traffic,
    pub log: Vec<u8>,
}

impl LogMaker {
    pub fn new(mut random: Random) -> LogMaker {
        let any = random.between(64, 2_048) as u32;
        let largest = random.pick(&[64, 65, 100, 2_047, 2_048, any]);
        LogMaker::with_largest(random, largest)
    }

    pub fn with_largest(random: Random, largest: u32) -> LogMaker {
        let mut log = Vec::new();
        Field::Largest { largest: largest as u16 }.write(&mut log);
        LogMaker { traffic: Traffic::new(random, largest), log }
    }

    pub fn random(&mut self) -> &mut Random {
        &mut self.traffic.random
    }

    pub fn take(&mut self, call: Call) -> u32 {
        field_of(call).write(&mut self.log);
        self.traffic.play(call)
    }

    pub fn take_times(&mut self, call: Call, times: usize) {
        for _ in 0..times {
            self.take(call);
        }
    }

    pub fn open(&mut self, block: u32, share: u32) -> u32 {
        self.take(Call::Open { block, share })
    }

    pub fn record_for(&mut self, block: u32) -> u32 {
        let call = self.traffic.record_for(block);
        self.take(call)
    }

    pub fn any_call(&mut self, habits: &Habits) {
        let call = self.traffic.any_call(habits);
        self.take(call);
    }

    /// Random calls until the log has this many bytes or a few more.
    pub fn calls_until(&mut self, bytes: usize, habits: &Habits) {
        while self.log.len() < bytes {
            self.any_call(habits);
        }
    }

    pub fn serve_until_empty(&mut self) {
        while self.traffic.engine.any_waits() {
            self.take(Call::Serve);
        }
    }

    pub fn close_all(&mut self) {
        self.serve_until_empty();
        for block in self.open_blocks() {
            self.take(Call::Close { block });
        }
    }

    pub fn open_blocks(&self) -> Vec<u32> {
        self.traffic.open_numbers(|_| true)
    }

    /// The number of the open block on this place.
    pub fn number_on(&self, place: usize) -> u32 {
        self.traffic.engine.places[place].as_ref().expect("this place has an open block").number
    }

    /// Serves, and fills the shortest lane, so that all blocks stay busy.
    pub fn busy_until(&mut self, bytes: usize) {
        while self.log.len() < bytes {
            self.take(Call::Serve);
            let blocks = self.traffic.engine.places.iter().flatten();
            if let Some(shortest) = blocks.min_by_key(|block| block.lane.len()).map(|block| block.number) {
                self.record_for(shortest);
            }
        }
    }

    /// A field to be passed over, with a value of this length.
    pub fn pass_over(&mut self, length: usize) {
        let tag = self.random().between(FIRST_PASSED_OVER.into(), u8::MAX.into()) as u8;
        let value = self.random().bytes(length);
        Field::Other { tag, value: &value }.write(&mut self.log);
    }

    /// A field with any tag and a value of any length, whether the reader takes it or not.
    pub fn any_field(&mut self, tag: u8, length: usize) {
        self.log.push(tag);
        self.log.extend_from_slice(&(length as u16).to_be_bytes());
        let value = self.random().bytes(length);
        self.log.extend(value);
    }
}

pub fn field_of(call: Call) -> Field<'static> {
    match call {
        Call::Open { block, share } => Field::Open { block, share },
        Call::Rename { old, new } => Field::Rename { old, new },
        Call::Close { block } => Field::Close { block },
        Call::Record { block, number, length } => Field::Record { block, number, length },
        Call::Serve => Field::Serve,
        Call::Burst { .. } => unreachable!("a log has no bursts"),
    }
}
