//! Slips in keeping accounts, each behind a switch that only tests can set, to see that the stored logs tell them.

use std::collections::BTreeMap;

use crate::account::{Account, Full, MOST_CREDIT};
use crate::engine::{Block, Engine, Told};

#[derive(Clone, Debug, Default, PartialEq, Eq)]
pub(crate) struct AccountSlips {
    pub slot_counted_at_each_send: bool,
    pub counts_survive_a_close: bool,
    pub counts_lost_at_a_rename: bool,
    pub lost_while_the_lane_is_not_empty: bool,
    pub lost_before_the_send: bool,
    pub open_slot_left_out: bool,
    pub full_at_the_limit: bool,
    /// The accounts that closed blocks left behind.
    pub left_behind: BTreeMap<u32, Account>,
}

impl AccountSlips {
    pub fn opened(&self, block: u32, beginning: Account) -> Account {
        self.left_behind.get(&block).copied().unwrap_or(beginning)
    }

    pub fn renamed(&self, account: Account) -> Account {
        if self.counts_lost_at_a_rename {
            Account::default()
        } else {
            account
        }
    }

    pub fn closed(&mut self, block: u32, account: Account) {
        if self.counts_survive_a_close {
            self.left_behind.insert(block, account);
        }
    }

    pub fn sent(&self, account: &mut Account, told: &Told) -> Result<(), Full> {
        if self.slot_counted_at_each_send && told.credit_given.is_none() {
            account.slots += 1;
        }
        if self.lost_while_the_lane_is_not_empty && !told.lane_is_empty {
            account.lost = account.lost + told.left;
        }
        if self.lost_before_the_send && told.lane_is_empty {
            account.lost = account.lost + told.bytes.in_parts();
        }
        if self.full_at_the_limit && account.credit == MOST_CREDIT {
            return Err(Full);
        }
        Ok(())
    }

    /// The slot that is open at the end is not counted yet.
    pub fn reported(&self, mut account: Account, block: &Block, engine: &Engine) -> Account {
        let in_slot = engine.slot.is_some_and(|slot| engine.find(block.number) == Ok(slot.place));
        if self.open_slot_left_out && in_slot {
            account.slots -= 1;
            account.credit = account.credit - block.credit;
        }
        account
    }
}

mod tests {
    use super::*;
    use crate::log::Reader;
    use crate::report::{report_fields, Counting};
    use crate::report_case::ReportCase;
    use crate::slipped::{first_difference, stored};

    fn report_with(slips: AccountSlips, text: &str) -> String {
        let case = ReportCase::read(text).unwrap();
        let (largest, reader) = Reader::new(&case.log, 0).begin().unwrap();
        let beginnings = case.beginnings();
        let mut counting = Counting::new(largest, &beginnings);
        counting.accounts.slips = slips;
        report_fields(counting, reader).to_string()
    }

    fn told_by(slips: AccountSlips, text: &str) -> [String; 2] {
        first_difference(&report_with(AccountSlips::default(), text), &report_with(slips, text))
    }

    #[test]
    fn a_slot_counted_at_each_send_is_too_many_slots() {
        let slips = AccountSlips { slot_counted_at_each_send: true, ..AccountSlips::default() };
        assert_eq!(
            told_by(slips.clone(), stored!("report-deficit")),
            ["11 2 19660800 260 -2621440 0", "11 3 19660800 260 -2621440 0"]
        );
        assert_eq!(
            told_by(slips, stored!("report-rename")),
            ["51 2 19660800 250 -3276800 3276800", "51 4 19660800 250 -3276800 3276800"]
        );
    }

    #[test]
    fn counts_that_survive_a_close_go_to_the_next_block_with_that_number() {
        let slips = AccountSlips { counts_survive_a_close: true, ..AccountSlips::default() };
        assert_eq!(
            told_by(slips.clone(), stored!("report-reopen")),
            ["11 0 0 0 0 0", "11 3 19660800 210 -5898240 5898240"]
        );
        assert_eq!(
            told_by(slips, stored!("report-reopen-elsewhere")),
            ["11 1 6553600 90 -655360 655360", "11 2 13107200 150 -3276800 3276800"]
        );
    }

    #[test]
    fn counts_lost_at_a_rename_are_missing_at_the_end() {
        let slips = AccountSlips { counts_lost_at_a_rename: true, ..AccountSlips::default() };
        assert_eq!(
            told_by(slips.clone(), stored!("report-rename")),
            ["51 2 19660800 250 -3276800 3276800", "51 0 0 0 0 0"]
        );
        assert_eq!(
            told_by(slips, stored!("report-rename-swap")),
            ["12 3 19660800 210 -5898240 5898240", "12 1 6553600 10 -5898240 5898240"]
        );
    }

    #[test]
    fn a_deficit_or_an_open_slots_rest_that_counts_as_lost_is_too_much() {
        let slips = AccountSlips { lost_while_the_lane_is_not_empty: true, ..AccountSlips::default() };
        assert_eq!(
            told_by(slips.clone(), stored!("report-deficit")),
            ["11 2 19660800 260 -2621440 0", "11 2 19660800 260 -2621440 17694720"]
        );
        assert_eq!(
            told_by(slips, stored!("report-open-slot")),
            ["11 1 9830400 100 -3276800 0", "11 1 9830400 100 -3276800 9830400"]
        );
    }

    #[test]
    fn lost_as_it_was_before_the_send_is_too_much() {
        let slips = AccountSlips { lost_before_the_send: true, ..AccountSlips::default() };
        assert_eq!(
            told_by(slips, stored!("report-places")),
            ["40 1 4194304 60 -262144 262144", "40 1 4194304 60 -262144 4194304"]
        );
    }

    #[test]
    fn an_open_slot_left_out_makes_the_block_get_more_than_its_due() {
        let slips = AccountSlips { open_slot_left_out: true, ..AccountSlips::default() };
        assert_eq!(
            told_by(slips.clone(), stored!("report-open-slot")),
            ["11 1 9830400 100 -3276800 0", "11 0 0 100 6553600 0"]
        );
        assert_eq!(told_by(slips, stored!("end-in-slot")), ["11 1 9830400 50 -6553600 0", "11 0 0 50 3276800 0"]);
    }

    #[test]
    fn full_at_the_limit_is_one_slot_too_early() {
        let slips = AccountSlips { full_at_the_limit: true, ..AccountSlips::default() };
        let exact = include_str!("../../tests/report_cases/exact.txt");
        assert_eq!(
            told_by(slips, exact),
            ["7 1099511627776 4611686018427387904 70368744177660 -262144 262144", "full"]
        );
    }
}
