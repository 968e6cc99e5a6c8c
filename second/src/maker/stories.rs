//! What a log's report is a test of: the stories that a comparison of reports must have met.

use std::collections::{BTreeMap, BTreeSet};

use crate::log::{Field, Reader};
use crate::report::{from_nothing, Counting};

/// What happened to a block that is open.
#[derive(Clone, Copy, Default)]
struct Past {
    /// It was renamed after it had a slot, and while that slot was open.
    renamed: bool,
    renamed_in_slot: bool,
    /// An earlier block closed under the number with which it opened, after a slot, on this place or on another.
    reopened: bool,
    reopened_elsewhere: bool,
}

#[derive(Default)]
struct Stories {
    pasts: BTreeMap<u32, Past>,
    /// The numbers under which blocks that had slots have closed, each with the last such block's place.
    closed: BTreeMap<u32, usize>,
}

/// The stories of a log, by name.
pub fn stories(log: &[u8]) -> BTreeSet<&'static str> {
    let Ok((largest, reader)) = Reader::new(log, 0).begin() else {
        return BTreeSet::from(["broken"]);
    };
    let beginnings = from_nothing();
    let mut counting = Counting::new(largest, &beginnings);
    let mut stories = Stories::default();
    for field in reader {
        let Ok(field) = field else {
            return BTreeSet::from(["broken"]);
        };
        stories.take(&mut counting, field);
    }
    stories.at_end(&counting)
}

impl Stories {
    /// Plays a field, and notes it if it was done.
    fn take(&mut self, counting: &mut Counting, field: Field) {
        match field {
            Field::Open { block, .. } => {
                let was_open = counting.engine.find(block).is_ok();
                play(counting, field);
                if let (false, Ok(place)) = (was_open, counting.engine.find(block)) {
                    self.opened(block, place);
                }
            }
            Field::Rename { old, new } => {
                let Ok(place) = counting.engine.find(old) else {
                    return;
                };
                let had_slot = counting.accounts.of(old).slots > 0;
                let in_slot = counting.engine.slot.is_some_and(|slot| slot.place == place);
                play(counting, field);
                if counting.engine.find(old).is_err() {
                    self.renamed(old, new, had_slot, in_slot);
                }
            }
            Field::Close { block } => {
                let Ok(place) = counting.engine.find(block) else {
                    return;
                };
                let had_slot = counting.accounts.of(block).slots > 0;
                play(counting, field);
                if counting.engine.find(block).is_err() && had_slot {
                    self.closed.insert(block, place);
                }
            }
            _ => play(counting, field),
        }
    }

    fn opened(&mut self, block: u32, place: usize) {
        let closed_on = self.closed.get(&block);
        let past = Past {
            reopened: closed_on.is_some(),
            reopened_elsewhere: closed_on.is_some_and(|&closed_on| closed_on != place),
            ..Past::default()
        };
        self.pasts.insert(block, past);
    }

    fn renamed(&mut self, old: u32, new: u32, had_slot: bool, in_slot: bool) {
        let mut past = self.pasts[&old];
        past.renamed |= had_slot;
        past.renamed_in_slot |= in_slot;
        self.pasts.insert(new, past);
    }

    fn at_end(&self, counting: &Counting) -> BTreeSet<&'static str> {
        let lines = counting.blocks();
        let any_past = |told: fn(&Past) -> bool| lines.iter().any(|(block, _)| told(&self.pasts[block]));
        let all = [
            ("empty", lines.is_empty()),
            ("open-slot", counting.engine.slot.is_some()),
            ("renamed", any_past(|past| past.renamed)),
            ("renamed-in-slot", any_past(|past| past.renamed_in_slot)),
            ("reopened", any_past(|past| past.reopened)),
            ("reopened-elsewhere", any_past(|past| past.reopened_elsewhere)),
            ("below", lines.iter().any(|(_, account)| account.difference() < 0)),
            ("even", lines.iter().any(|(_, account)| account.slots > 0 && account.difference() == 0)),
            ("lost", lines.iter().any(|(_, account)| account.lost.0 > 0)),
            ("idle", lines.iter().any(|(_, account)| account.slots == 0)),
        ];
        all.into_iter().filter(|(_, told)| *told).map(|(name, _)| name).collect()
    }
}

fn play(counting: &mut Counting, field: Field) {
    counting.take(field).expect("no log in memory gives so much credit");
}
