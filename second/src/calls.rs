//! The public calls of the box, each on a board and two tables that may hold anything.

use crate::board::{Board, Tables};
use crate::codes::Refusal;
use crate::convert::{engine_of, write_back};
use crate::engine::{Burst, Engine, Record, Sent};
use crate::numbers::Bytes;
use crate::spoilt::broken_clauses;

#[derive(Clone, Debug, PartialEq, Eq)]
pub struct Lent {
    pub board: Board,
    pub tables: Tables,
}

impl Lent {
    pub fn all_zeros() -> Lent {
        Lent { board: Board::all_zeros(), tables: Tables::all_zeros() }
    }

    /// A done making clears both tables; a refused one gives the board of all zeros and leaves the tables.
    pub fn make(&mut self, largest: u32) -> Result<(), Refusal> {
        self.board = Board::all_zeros();
        self.check_tables()?;
        let engine = Engine::make(largest)?;
        self.tables = Tables::all_zeros();
        self.board = write_back(&engine, &mut self.tables);
        Ok(())
    }

    pub fn open(&mut self, block: u32, share: u32) -> Result<(), Refusal> {
        self.call(|engine| engine.open(block, share))
    }

    pub fn rename(&mut self, old: u32, new: u32) -> Result<(), Refusal> {
        self.call(|engine| engine.rename(old, new))
    }

    pub fn close(&mut self, block: u32) -> Result<(), Refusal> {
        self.call(|engine| engine.close(block))
    }

    pub fn record(&mut self, block: u32, record: Record) -> Result<(), Refusal> {
        self.call(|engine| engine.record(block, record))
    }

    pub fn serve(&mut self) -> Result<Sent, Refusal> {
        self.call(|engine| engine.serve())
    }

    pub fn burst(&mut self, budget: Bytes, list: &mut [u32]) -> Burst {
        match self.call(|engine| Ok(engine.burst(budget, list))) {
            Ok(burst) => burst,
            Err(refusal) => Burst { count: 0, bytes: Bytes(0), stopped_by: refusal },
        }
    }

    /// The check that every call but making begins with: code 3, then code 2.
    pub fn check(&self) -> Result<(), Refusal> {
        self.check_tables()?;
        if broken_clauses(&self.board, &self.tables).is_empty() {
            Ok(())
        } else {
            Err(Refusal::Spoilt)
        }
    }

    fn check_tables(&self) -> Result<(), Refusal> {
        if self.tables.have_right_lengths() {
            Ok(())
        } else {
            Err(Refusal::TableLength)
        }
    }

    /// Plays one call on the plain engine and writes the board back, after a refusal too: the engine must leave it as
    /// it was.
    fn call<T>(&mut self, play: impl FnOnce(&mut Engine) -> Result<T, Refusal>) -> Result<T, Refusal> {
        self.check()?;
        let mut engine = engine_of(&self.board, &self.tables);
        let answer = play(&mut engine);
        self.board = write_back(&engine, &mut self.tables);
        answer
    }
}
