//! Sides that do the same work take turns in one process; of each the best round counts, and in every round all give
//! the same answers.

use std::time::{Duration, Instant};

/// One round of a side: how long the timed part took, and the hash of its answers.
pub struct Round {
    pub time: Duration,
    pub hash: u64,
}

pub type Side<'a> = Box<dyn FnMut() -> Round + 'a>;

/// The best time of each side, in nanoseconds.
pub fn best_in_turn<const SIDES: usize>(rounds: usize, mut sides: [Side; SIDES]) -> [f64; SIDES] {
    let mut best = [Duration::MAX; SIDES];
    for _ in 0..rounds {
        let rounds: [Round; SIDES] = std::array::from_fn(|side| sides[side]());
        assert!(rounds.iter().all(|round| round.hash == rounds[0].hash), "the answers differ");
        for (best, round) in best.iter_mut().zip(rounds) {
            *best = (*best).min(round.time);
        }
    }
    best.map(|time| time.as_secs_f64() * 1e9)
}

/// Runs the timed part of a round.
pub fn timed<T>(work: impl FnOnce() -> T) -> (Duration, T) {
    let start = Instant::now();
    let answer = work();
    (start.elapsed(), answer)
}

/// FNV-1a over 64-bit words.
pub struct Hash {
    value: u64,
}

impl Hash {
    pub fn new() -> Hash {
        Hash { value: 0xcbf2_9ce4_8422_2325 }
    }

    pub fn take(&mut self, word: u64) {
        self.value = (self.value ^ word).wrapping_mul(0x100_0000_01b3);
    }

    pub fn take_bytes(&mut self, bytes: &[u8]) {
        self.take(bytes.len() as u64);
        bytes.iter().for_each(|&byte| self.take(byte.into()));
    }

    pub fn value(&self) -> u64 {
        self.value
    }
}
