//! The five slips that document 01 warns of, each behind a switch that only tests can set, to see that the stored logs
//! tell them.

use std::collections::VecDeque;

use crate::engine::{Block, Turn};
use crate::numbers::*;

#[derive(Clone, Debug, Default, PartialEq, Eq)]
pub(crate) struct Slips {
    pub pending_in_the_interval_of_filling: bool,
    pub deficit_survives: bool,
    pub fraction_of_credit_dropped: bool,
    pub clock_jumps_for_highest_class: bool,
    pub number_stored_with_record: bool,
    /// The deficits that closed blocks left behind.
    pub left_on_place: Vec<(usize, Parts)>,
}

impl Slips {
    pub fn ready_of_filled_lane(&self, ready: u64, class: usize, clock: u64) -> u64 {
        if self.pending_in_the_interval_of_filling {
            clock - clock % interval(class)
        } else {
            ready
        }
    }

    pub fn deficit_of_emptied_lane(&self, deficit: Parts, left: Parts) -> Parts {
        if self.deficit_survives {
            left
        } else {
            deficit
        }
    }

    /// The place keeps its last owner's deficit.
    pub fn closed(&mut self, place: usize, deficit: Parts) {
        if self.deficit_survives {
            self.left_on_place.push((place, deficit));
        }
    }

    pub fn opened(&self, place: usize, mut block: Block) -> Block {
        if let Some((_, deficit)) = self.left_on_place.iter().rev().find(|(left_on, _)| *left_on == place) {
            block.deficit = *deficit;
        }
        if self.fraction_of_credit_dropped {
            block.credit = Bytes(block.credit.0 / PARTS_PER_BYTE).in_parts();
        }
        block
    }

    pub fn clock_of_new_slot(&self, clock: u64, present: u64, orders: &[VecDeque<Turn>]) -> u64 {
        let highest_active = orders.iter().rposition(|order| !order.is_empty());
        match highest_active {
            Some(class) if self.clock_jumps_for_highest_class && clock > present => next_start(class, present),
            _ => clock,
        }
    }

    /// The records lie under the old number, which no block has now: no turn comes to them.
    pub fn renamed(&self, place: usize, orders: &mut [VecDeque<Turn>]) {
        if self.number_stored_with_record {
            for order in orders {
                order.retain(|turn| turn.place != place);
            }
        }
    }
}

mod tests {
    use super::*;
    use crate::engine::Engine;
    use crate::listing;
    use crate::log::Reader;
    use crate::log_text;
    use crate::play::play_fields;
    use crate::slipped::{first_difference, stored};

    fn listing_with(slips: Slips, text: &str) -> String {
        let log = log_text::bytes(text).unwrap();
        let (largest, reader) = Reader::new(&log, 0).begin().unwrap();
        let mut engine = Engine::make(largest).unwrap();
        engine.slips = slips;
        listing::text(&play_fields(engine, reader))
    }

    fn told_by(slips: Slips, text: &str) -> [String; 2] {
        first_difference(&listing_with(Slips::default(), text), &listing_with(slips, text))
    }

    #[test]
    fn a_block_pending_in_the_interval_of_filling_has_two_slots_in_it() {
        let slips = Slips { pending_in_the_interval_of_filling: true, ..Slips::default() };
        assert_eq!(told_by(slips.clone(), stored!("interval")), ["out 7 1 64 2", "out 7 1 64 0"]);
        // The next slot, at 1, is in the same interval of class 1, from 0 to 2.
        assert!(listing_with(slips, stored!("interval")).contains("out 7 2 64 1\n"));
    }

    #[test]
    fn a_deficit_that_survives_lengthens_a_later_slot_of_the_block_or_of_the_places_next_owner() {
        let slips = Slips { deficit_survives: true, ..Slips::default() };
        assert_eq!(told_by(slips.clone(), stored!("deficit-emptied")), ["out 11 3 100 6", "out 11 3 100 4"]);
        assert_eq!(told_by(slips, stored!("deficit-owner")), ["out 12 3 100 6", "out 12 3 100 4"]);
    }

    #[test]
    fn a_dropped_fraction_of_credit_costs_a_record_its_slot() {
        let slips = Slips { fraction_of_credit_dropped: true, ..Slips::default() };
        assert_eq!(told_by(slips, stored!("fraction")), ["out 9 4 64 4", "out 9 4 64 6"]);
    }

    #[test]
    fn a_clock_that_jumps_for_the_highest_class_skips_a_start() {
        let slips = Slips { clock_jumps_for_highest_class: true, ..Slips::default() };
        assert_eq!(told_by(slips, stored!("jump")), ["out 4 4 2048 4", "out 4 4 2048 65536"]);
    }

    #[test]
    fn a_number_stored_with_the_record_strands_it_at_a_rename() {
        let slips = Slips { number_stored_with_record: true, ..Slips::default() };
        assert_eq!(told_by(slips, stored!("rename-queued")), ["out 21 1 100 2", "out 11 5 100 2"]);
    }
}
