//! What each block bought and got: the account of a block from its opening on, counted from what the sends tell.

use std::collections::BTreeMap;

#[cfg(test)]
use crate::account_slips::AccountSlips;
use crate::engine::Told;
use crate::numbers::{Bytes, Parts};

/// A slot that would take the credit given to a block above this ends the counting.
pub const MOST_CREDIT: Parts = Parts(1 << 62);

#[derive(Clone, Copy, Debug, Default, PartialEq, Eq)]
pub struct Account {
    pub slots: u64,
    /// The credit of all its slots.
    pub credit: Parts,
    /// The bytes sent, as charged.
    pub sent: Bytes,
    /// What was left of slots as they emptied the lane.
    pub lost: Parts,
}

/// A slot would take the credit given to a block above 2^62 parts.
#[derive(Clone, Copy, Debug, PartialEq, Eq)]
pub struct Full;

impl Account {
    /// Counts one send. A slot's credit is counted as it begins.
    pub fn count(&mut self, told: &Told) -> Result<(), Full> {
        if let Some(credit) = told.credit_given {
            let given = self.credit + credit;
            if given > MOST_CREDIT {
                return Err(Full);
            }
            self.slots += 1;
            self.credit = given;
        }
        self.sent = self.sent + told.bytes;
        if told.lane_is_empty {
            self.lost = self.lost + told.left;
        }
        Ok(())
    }

    pub fn got(&self) -> Parts {
        self.sent.in_parts()
    }

    /// Got minus due, in parts. Neither is over 2^62, so both fit and so does the difference.
    pub fn difference(&self) -> i64 {
        self.got().0 as i64 - self.credit.0 as i64
    }
}

/// The accounts of the open blocks, each under the number that its block has now.
#[derive(Clone, Debug, Default, PartialEq, Eq)]
pub struct Accounts {
    of: BTreeMap<u32, Account>,
    #[cfg(test)]
    pub(crate) slips: AccountSlips,
}

impl Accounts {
    pub fn of(&self, block: u32) -> &Account {
        &self.of[&block]
    }

    pub fn opened(&mut self, block: u32, beginning: Account) {
        #[cfg(test)]
        let beginning = self.slips.opened(block, beginning);
        self.of.insert(block, beginning);
    }

    pub fn renamed(&mut self, old: u32, new: u32) {
        let account = self.of.remove(&old).expect("an open block has an account");
        #[cfg(test)]
        let account = self.slips.renamed(account);
        self.of.insert(new, account);
    }

    pub fn closed(&mut self, block: u32) {
        #[cfg(test)]
        self.slips.closed(block, self.of[&block]);
        self.of.remove(&block);
    }

    pub fn sent(&mut self, block: u32, told: &Told) -> Result<(), Full> {
        let account = self.of.get_mut(&block).expect("an open block has an account");
        account.count(told)?;
        #[cfg(test)]
        self.slips.sent(account, told)?;
        Ok(())
    }
}
