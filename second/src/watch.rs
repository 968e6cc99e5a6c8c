//! Watches random runs for demand 3, from outside: only by what the calls answer and by which lanes hold records.

use crate::codes::{Refusal, DONE};
use crate::engine::Engine;
use crate::maker::random::Random;
use crate::maker::traffic::{Call, Habits, Traffic};
use crate::numbers::*;
use crate::slips::Slips;

/// What is known of the block on one place.
#[derive(Clone, Copy, Default)]
struct Seen {
    /// Bytes of other records sent since its front record came to the front.
    other_bytes: u64,
    /// It waited when the clock reached the start of the present interval of its class.
    waited_at_start: bool,
    /// Slots begun in the present interval of its class.
    slots: u32,
}

struct Watch {
    traffic: Traffic,
    seen: Vec<Seen>,
}

impl Watch {
    fn engine(&self) -> &Engine {
        &self.traffic.engine
    }

    fn place_of(&self, number: u32) -> Option<usize> {
        self.engine().places.iter().position(|block| block.as_ref().is_some_and(|block| block.number == number))
    }

    fn take(&mut self, call: Call) -> Result<(), String> {
        match call {
            Call::Serve => self.serve(),
            Call::Close { block } => {
                let place = self.place_of(block);
                match (self.traffic.play(call), place) {
                    (DONE, Some(place)) => self.interval_is_kept(place),
                    _ => Ok(()),
                }
            }
            Call::Open { block, .. } => {
                if let (DONE, Some(place)) = (self.traffic.play(call), self.place_of(block)) {
                    self.seen[place] = Seen::default();
                }
                Ok(())
            }
            Call::Record { block, .. } => {
                if let (DONE, Some(place)) = (self.traffic.play(call), self.place_of(block)) {
                    self.record_is_taken(place);
                }
                Ok(())
            }
            Call::Rename { .. } | Call::Burst { .. } => {
                self.traffic.play(call);
                Ok(())
            }
        }
    }

    fn record_is_taken(&mut self, place: usize) {
        let is_front = self.engine().places[place].as_ref().is_some_and(|block| block.lane.len() == 1);
        if is_front {
            self.seen[place].other_bytes = 0;
        }
    }

    fn serve(&mut self) -> Result<(), String> {
        let before = self.engine().clone();
        let slot_was_open = before.slot.is_some();
        let sent = match self.traffic.engine.serve() {
            Ok(sent) => sent,
            Err(Refusal::NoBlockWaits) if before.waiting_records() == 0 => return Ok(()),
            Err(refusal) => return Err(format!("records wait, and serving is refused by {}", refusal.code())),
        };
        let after = self.engine().clone();
        let sender = self.place_of(sent.block).ok_or("the sender is not open")?;
        // Three moments: the clock goes to the slot's, the record is sent, the clock goes on if the slot ends.
        self.clock_moves(&before, before.clock, sent.clock)?;
        if !slot_was_open {
            self.seen[sender].slots += 1;
            if !self.seen[sender].waited_at_start || self.seen[sender].slots > 1 {
                return Err(format!("block {} has a slot at {} that it should not have", sent.block, sent.clock));
            }
        }
        self.record_is_sent(&before, sender, sent.length.into())?;
        self.clock_moves(&after, sent.clock, after.clock)
    }

    /// Byte bound: at most (2^(k+1) - 1) x (3L - 1) bytes of other records while a record is at the front.
    fn record_is_sent(&mut self, before: &Engine, sender: usize, length: u64) -> Result<(), String> {
        for (place, block) in before.places.iter().enumerate() {
            let Some(block) = block.as_ref().filter(|block| block.waits()) else {
                continue;
            };
            if place == sender {
                self.seen[place].other_bytes = 0;
                continue;
            }
            self.seen[place].other_bytes += length;
            let bound = ((2 << block.class) - 1) * (3 * u64::from(before.largest) - 1);
            if self.seen[place].other_bytes > bound {
                return Err(format!("block {} waits for {} bytes", block.number, self.seen[place].other_bytes));
            }
        }
        Ok(())
    }

    /// The clock goes from one time to another while the lanes are as given.
    fn clock_moves(&mut self, lanes: &Engine, from: u64, to: u64) -> Result<(), String> {
        for (place, block) in lanes.places.iter().enumerate() {
            let Some(block) = block else {
                continue;
            };
            let starts_reached = to / interval(block.class) - from / interval(block.class);
            if starts_reached == 0 {
                continue;
            }
            self.interval_is_kept(place)?;
            if block.waits() && starts_reached > 1 {
                return Err(format!("block {} waits, and a whole interval is skipped", block.number));
            }
            self.seen[place].waited_at_start = block.waits();
            self.seen[place].slots = 0;
        }
        Ok(())
    }

    /// Exactly one slot if the block waited at the start of the interval that ends now, else none.
    fn interval_is_kept(&self, place: usize) -> Result<(), String> {
        let Seen { waited_at_start, slots, .. } = self.seen[place];
        if slots == u32::from(waited_at_start) {
            Ok(())
        } else {
            Err(format!("place {place} had {slots} slots in an interval, waiting at its start: {waited_at_start}"))
        }
    }
}

fn watch_run(seed: u64, slips: Slips) -> Result<(), String> {
    let mut random = Random::new(seed);
    let largest = random.pick(&[64, 100, 2_048]);
    let mut watch = Watch { traffic: Traffic::new(random, largest), seen: vec![Seen::default(); PLACES] };
    watch.traffic.engine.slips = slips;
    // A line sold out and busy is what strains the bounds; the classes are low, so that many intervals pass.
    let habits = [
        Habits {
            open: 20,
            rename: 3,
            close: 20,
            record: 45,
            serve: 45,
            lowest_class: 1,
            numbers: 40,
            ..Habits::mixed()
        },
        Habits {
            open: 10,
            rename: 3,
            close: 30,
            record: 45,
            serve: 70,
            lowest_class: 0,
            numbers: 40,
            ..Habits::mixed()
        },
        Habits {
            open: 30,
            rename: 3,
            close: 3,
            record: 60,
            serve: 45,
            lowest_class: 3,
            numbers: 90,
            ..Habits::mixed()
        },
        Habits::mixed(),
    ];
    for _ in 0..15 {
        let habits = watch.traffic.random.pick(&habits);
        for _ in 0..100 {
            let call = watch.traffic.any_call(&habits);
            watch.take(call)?;
        }
    }
    Ok(())
}

#[test]
fn demand_3_holds_on_random_runs() {
    for seed in 0..600 {
        assert_eq!(watch_run(seed, Slips::default()), Ok(()), "seed {seed}");
    }
}

#[test]
fn the_watch_sees_what_breaks_demand_3() {
    let two_slots = Slips { pending_in_the_interval_of_filling: true, ..Slips::default() };
    let late_clock = Slips { clock_jumps_for_highest_class: true, ..Slips::default() };
    let stranded = Slips { number_stored_with_record: true, ..Slips::default() };
    for slips in [two_slots, late_clock, stranded] {
        assert!((0..20).any(|seed| watch_run(seed, slips.clone()).is_err()), "{slips:?}");
    }
}

/// Document 01: without the hold one of the four remaining blocks has no slot before 16.
#[test]
fn the_watch_sees_a_share_that_is_not_held() {
    let play = |hold: bool| {
        let mut watch = Watch { traffic: Traffic::new(Random::new(1), 100), seen: vec![Seen::default(); PLACES] };
        let mut calls = Vec::new();
        for block in 1..=8 {
            calls.push(Call::Open { block, share: 8_192 });
            calls.push(Call::Record { block, number: block, length: 100 });
        }
        calls.extend([Call::Serve; 4]);
        calls.extend([1, 2, 3, 4].map(|block| Call::Close { block }));
        for call in calls {
            watch.take(call)?;
        }
        if !hold {
            watch.traffic.engine.holds.clear();
        }
        watch.take(Call::Open { block: 9, share: 32_768 })?;
        watch.take(Call::Record { block: 9, number: 9, length: 100 })?;
        (0..5).try_for_each(|_| watch.take(Call::Serve))
    };
    assert_eq!(play(true), Ok(()));
    assert!(play(false).is_err());
}

#[test]
fn the_watch_counts_other_bytes_up_to_the_bound() {
    let mut watch = Watch { traffic: Traffic::new(Random::new(1), 100), seen: vec![Seen::default(); PLACES] };
    for block in [1, 2] {
        watch.traffic.play(Call::Open { block, share: 32_768 });
        watch.traffic.play(Call::Record { block, number: 1, length: 100 });
    }
    // Class 1 and L 100: the bound is 3 x 299 bytes.
    let lanes = watch.engine().clone();
    assert_eq!(watch.record_is_sent(&lanes, 0, 897), Ok(()));
    assert!(watch.record_is_sent(&lanes, 0, 1).is_err());
    assert_eq!(watch.record_is_sent(&lanes, 1, 100), Ok(()), "its own record is none of the others");
    assert_eq!(watch.record_is_sent(&lanes, 0, 897), Ok(()), "a new front counts from nothing");
}
