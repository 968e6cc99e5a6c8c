//! A log in, its report out: what each block that is open at the end bought and got.

use std::fmt;

use crate::account::{Account, Accounts, Full};
use crate::engine::{Engine, Record};
use crate::log::{Field, Reader, Stop};
use crate::numbers::PLACES;

#[derive(Clone, Debug, PartialEq, Eq)]
pub enum Report {
    /// The blocks open at the end, by place, each with its account.
    Blocks(Vec<(u32, Account)>),
    Full,
    /// Neither whole nor full: the line that ends the listing too.
    Stopped(Stop),
}

/// Every line ends with one byte 10. Without an open block there is no line.
impl fmt::Display for Report {
    fn fmt(&self, out: &mut fmt::Formatter) -> fmt::Result {
        match self {
            Report::Blocks(blocks) => blocks.iter().try_for_each(|(block, account)| {
                let Account { slots, credit, sent, lost } = account;
                writeln!(out, "{block} {slots} {} {} {} {}", credit.0, sent.0, account.difference(), lost.0)
            }),
            Report::Full => writeln!(out, "full"),
            Report::Stopped(stop) => writeln!(out, "{stop}"),
        }
    }
}

/// The account with which a block begins that opens on each place.
pub type Beginnings = [Account; PLACES];

pub fn from_nothing() -> Beginnings {
    [Account::default(); PLACES]
}

/// The report of a log, as it is written.
pub fn report(log: &[u8]) -> String {
    report_at(log, 0)
}

/// The report of a log whose first byte has this offset, as it is written.
pub fn report_at(log: &[u8], first: u64) -> String {
    report_from(Reader::new(log, first), &from_nothing()).to_string()
}

/// The report of a log whose blocks begin with these accounts. The first line that ends it decides: nothing after it is
/// looked at.
pub fn report_from(log: Reader, beginnings: &Beginnings) -> Report {
    match log.begin() {
        Ok((largest, reader)) => report_fields(Counting::new(largest, beginnings), reader),
        Err(stop) => Report::Stopped(stop),
    }
}

/// Plays the fields after L on a board without blocks.
pub fn report_fields(mut counting: Counting, reader: Reader) -> Report {
    for field in reader {
        match field.map(|field| counting.take(field)) {
            Ok(Ok(())) => {}
            Ok(Err(Full)) => return Report::Full,
            Err(stop) => return Report::Stopped(stop),
        }
    }
    Report::Blocks(counting.blocks())
}

/// A board, and the accounts of its blocks beside it.
pub struct Counting<'a> {
    pub engine: Engine,
    pub accounts: Accounts,
    beginnings: &'a Beginnings,
}

impl<'a> Counting<'a> {
    /// A board without blocks, for an L that is known to be in range.
    pub fn new(largest: u32, beginnings: &'a Beginnings) -> Counting<'a> {
        Counting { engine: Engine::fresh(largest), accounts: Accounts::default(), beginnings }
    }

    /// Plays a field after L. A call that is refused changes no account.
    pub fn take(&mut self, field: Field) -> Result<(), Full> {
        let Counting { engine, accounts, beginnings } = self;
        match field {
            Field::Open { block, share } => {
                if engine.open(block, share).is_ok() {
                    let place = engine.find(block).expect("the block has just opened");
                    accounts.opened(block, beginnings[place]);
                }
            }
            Field::Close { block } => {
                if engine.close(block).is_ok() {
                    accounts.closed(block);
                }
            }
            Field::Rename { old, new } => {
                if engine.rename(old, new).is_ok() {
                    accounts.renamed(old, new);
                }
            }
            // A record is paid for when it is sent.
            Field::Record { block, number, length } => drop(engine.record(block, Record { number, length })),
            Field::Serve => {
                if let Ok((sent, told)) = engine.serve_and_tell() {
                    return accounts.sent(sent.block, &told);
                }
            }
            // The reader gives no second L.
            Field::Largest { .. } | Field::Other { .. } => {}
        }
        Ok(())
    }

    /// The open blocks, by place.
    pub fn blocks(&self) -> Vec<(u32, Account)> {
        let open = self.engine.places.iter().flatten();
        open.map(|block| {
            let account = *self.accounts.of(block.number);
            #[cfg(test)]
            let account = self.accounts.slips.reported(account, block, &self.engine);
            (block.number, account)
        })
        .collect()
    }
}
