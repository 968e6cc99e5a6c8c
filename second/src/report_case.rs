//! A log whose blocks don't begin with empty accounts, to reach what only a log of over 2^38 bytes can reach: `full`.
//!
//! Its text is a line `counts PLACE SLOTS CREDIT BYTES LOST` for each place on which blocks begin with these numbers,
//! and behind them the lines of the log. It has a byte form too.

use crate::account::{Account, MOST_CREDIT};
use crate::log::Reader;
use crate::log_text;
use crate::numbers::{Bytes, Parts, LEAST_LARGEST, PARTS_PER_BYTE, PLACES};
use crate::report::{from_nothing, report_from, Beginnings, Report};
use crate::words::{number, word_lines};

pub struct ReportCase {
    /// Places with the accounts that are handed in for them, each place once.
    pub counts: Vec<(usize, Account)>,
    pub log: Vec<u8>,
}

impl ReportCase {
    /// Reads the text of a case. A line that can't be read is told by its number.
    pub fn read(text: &str) -> Result<ReportCase, String> {
        let mut case = ReportCase { counts: Vec::new(), log: Vec::new() };
        for line in word_lines(text) {
            case.take_line(&line.words).map_err(|message| format!("line {}: {message}", line.number))?;
        }
        Ok(case)
    }

    fn take_line(&mut self, words: &[&str]) -> Result<(), String> {
        let ["counts", operands @ ..] = words else {
            return log_text::write_line(&mut self.log, words);
        };
        if !self.log.is_empty() {
            return Err("counts stand before the log".to_string());
        }
        let (place, account) = counts_of(operands)?;
        if self.counts.iter().any(|&(known, _)| known == place) {
            return Err(format!("place {place} has counts already"));
        }
        self.counts.push((place, account));
        Ok(())
    }

    pub fn report(&self) -> Report {
        report_from(Reader::new(&self.log, 0), &self.beginnings())
    }

    pub fn beginnings(&self) -> Beginnings {
        let mut beginnings = from_nothing();
        for &(place, account) in &self.counts {
            beginnings[place] = account;
        }
        beginnings
    }

    /// One byte, how many places have counts; for each of them five numbers of eight bytes, high byte first; the log.
    pub fn bytes(&self) -> Vec<u8> {
        let mut bytes = vec![self.counts.len() as u8];
        for (place, account) in &self.counts {
            for value in [*place as u64, account.slots, account.credit.0, account.sent.0, account.lost.0] {
                bytes.extend(value.to_be_bytes());
            }
        }
        bytes.extend(&self.log);
        bytes
    }
}

/// Counts that a block without a deficit can have: all its credit is got or lost, and every slot had the least or more.
fn counts_of(operands: &[&str]) -> Result<(usize, Account), String> {
    let [place, slots, credit, sent, lost] = *operands else {
        return Err("counts takes 5 numbers".to_string());
    };
    let place = number(place, PLACES as u64 - 1)? as usize;
    let credit = number(credit, MOST_CREDIT.0)?;
    let credit_of_least_slot = Bytes(LEAST_LARGEST.into()).in_parts();
    let account = Account {
        slots: number(slots, credit / credit_of_least_slot.0)?,
        credit: Parts(credit),
        sent: Bytes(number(sent, credit / PARTS_PER_BYTE)?),
        lost: Parts(number(lost, credit)?),
    };
    if account.credit != account.got() + account.lost {
        return Err(format!("{credit} parts are not what {} bytes and {} parts lost make", account.sent.0, lost));
    }
    Ok((place, account))
}
