//! Bursts and public single calls on boards with busy lanes.

use std::ops::RangeInclusive;

use second::board::{Board, Tables};
use second::calls::Lent;
use second::codes::code_of;
use second::convert::{engine_of, write_back};
use second::digest::digest;
use second::engine::{Engine, Record, Sent};
use second::maker::random::Random;
use second::numbers::{Bytes, LANE_DEPTH, PLACES, WHOLE_LINE};

use crate::proved;
use crate::timing::{best_in_turn, timed, Hash, Round, Side};

const LARGEST: u32 = 1_024;

/// Calls of a kind in a round of single calls.
const SINGLE_CALLS: usize = 64;

/// So many blocks are open, with so many records in each lane, all by public calls.
pub struct Busy {
    lent: Lent,
    blocks: usize,
    lane: usize,
}

impl Busy {
    pub fn new(blocks: usize, lane: usize) -> Busy {
        let mut random = Random::new(1);
        let mut lent = Lent::all_zeros();
        lent.make(LARGEST).expect("L is in range");
        for block in 1..=blocks as u32 {
            lent.open(block, random.between(1, u64::from(WHOLE_LINE) / blocks as u64) as u32).expect("the shares fit");
        }
        // Lane by lane in turn, as records come.
        for number in 0..(blocks * lane) as u32 {
            let record = Record { number, length: random.between(1, LARGEST.into()) as u16 };
            lent.record(number % blocks as u32 + 1, record).expect("the lane has room");
        }
        Busy { lent, blocks, lane }
    }

    pub fn records(&self) -> usize {
        self.blocks * self.lane
    }

    /// How many boards a round of bursts empties: enough for 2,048 records.
    pub fn boards(&self) -> usize {
        PLACES * LANE_DEPTH / self.records()
    }

    /// One burst that empties the board: the box's public call; the second program's engine, with no check; and its
    /// public call.
    pub fn measure_bursts(&self, rounds: usize) -> [f64; 3] {
        let mut lists = vec![vec![0; self.records() + 1]; self.boards()];
        let (mut engine_lists, mut public_lists) = (lists.clone(), lists.clone());
        let proved: Side = Box::new(move || {
            let mut boards = vec![proved::Board::from(self.lent.board.clone()); self.boards()];
            let Tables { numbers, lengths } = &self.lent.tables;
            let (time, bursts) = timed(|| {
                let burst = |(board, list): (&mut proved::Board, &mut Vec<u32>)| {
                    proved::burst(board, numbers, lengths, u64::MAX, list)
                };
                boards.iter_mut().zip(&mut lists).map(burst).collect::<Vec<_>>()
            });
            let mut hash = Hash::new();
            for ((board, list), (code, total)) in boards.into_iter().zip(&lists).zip(bursts) {
                self.take_burst(
                    &mut hash,
                    &board.into(),
                    &self.lent.tables,
                    list,
                    (total.count, total.bytes, code.into()),
                );
            }
            Round { time, hash: hash.value() }
        });
        let engine: Side = Box::new(move || {
            let mut engines = vec![engine_of(&self.lent.board, &self.lent.tables); self.boards()];
            let (time, bursts) = timed(|| {
                let burst = |(engine, list): (&mut Engine, &mut Vec<u32>)| engine.burst(Bytes(u64::MAX), list);
                engines.iter_mut().zip(&mut engine_lists).map(burst).collect::<Vec<_>>()
            });
            let mut hash = Hash::new();
            for ((engine, list), burst) in engines.iter().zip(&engine_lists).zip(bursts) {
                let mut tables = self.lent.tables.clone();
                let board = write_back(engine, &mut tables);
                self.take_burst(
                    &mut hash,
                    &board,
                    &tables,
                    list,
                    (burst.count, burst.bytes.0, burst.stopped_by.code()),
                );
            }
            Round { time, hash: hash.value() }
        });
        let public: Side = Box::new(move || {
            let mut lents = vec![self.lent.clone(); self.boards()];
            let (time, bursts) = timed(|| {
                let burst = |(lent, list): (&mut Lent, &mut Vec<u32>)| lent.burst(Bytes(u64::MAX), list);
                lents.iter_mut().zip(&mut public_lists).map(burst).collect::<Vec<_>>()
            });
            let mut hash = Hash::new();
            for ((lent, list), burst) in lents.iter().zip(&public_lists).zip(bursts) {
                self.take_burst(
                    &mut hash,
                    &lent.board,
                    &lent.tables,
                    list,
                    (burst.count, burst.bytes.0, burst.stopped_by.code()),
                );
            }
            Round { time, hash: hash.value() }
        });
        best_in_turn(rounds, [proved, engine, public])
    }

    fn take_burst(
        &self,
        hash: &mut Hash,
        board: &Board,
        tables: &Tables,
        list: &[u32],
        (count, bytes, code): (usize, u64, u32),
    ) {
        assert_eq!(count, self.records(), "a burst empties the board");
        hash.take(count as u64);
        hash.take(bytes);
        hash.take(code.into());
        hash.take(digest(board, tables, Some(list)));
    }

    /// Public records, each with the check of the board: the box's and the second program's.
    pub fn measure_records(&self, rounds: usize) -> [f64; 2] {
        self.measure_records_of(1..=LARGEST, rounds)
    }

    /// The check of the board alone: a record of no bytes is refused right after it.
    pub fn measure_checks(&self, rounds: usize) -> [f64; 2] {
        self.measure_records_of(0..=0, rounds)
    }

    fn measure_records_of(&self, lengths: RangeInclusive<u32>, rounds: usize) -> [f64; 2] {
        let calls: Vec<(u32, Record)> = {
            let mut random = Random::new(2);
            let mut length = || random.between((*lengths.start()).into(), (*lengths.end()).into()) as u16;
            let record = |n: usize| Record { number: n as u32, length: length() };
            let block = |n: usize| (n % self.blocks) as u32 + 1;
            (0..SINGLE_CALLS).map(block).zip((0..SINGLE_CALLS).map(record)).collect()
        };
        let other_calls = calls.clone();
        let proved: Side = Box::new(move || {
            let mut board = proved::Board::from(self.lent.board.clone());
            let mut tables = self.lent.tables.clone();
            let (time, codes) = timed(|| {
                let record = |&(block, Record { number, length }): &(u32, Record)| {
                    u32::from(proved::record(
                        &mut board,
                        &mut tables.numbers,
                        &mut tables.lengths,
                        block,
                        number,
                        length,
                    ))
                };
                calls.iter().map(record).collect::<Vec<u32>>()
            });
            Round { time, hash: hash_of_codes(&board.into(), &tables, &codes) }
        });
        let second: Side = Box::new(move || {
            let mut lent = self.lent.clone();
            let (time, codes) = timed(|| {
                let record = |&(block, record): &(u32, Record)| code_of(&lent.record(block, record));
                other_calls.iter().map(record).collect::<Vec<u32>>()
            });
            Round { time, hash: hash_of_codes(&lent.board, &lent.tables, &codes) }
        });
        best_in_turn(rounds, [proved, second]).map(|time| time / SINGLE_CALLS as f64)
    }

    /// Public serves, each with the check of the board: the box's and the second program's.
    pub fn measure_serves(&self, rounds: usize) -> [f64; 2] {
        let proved: Side = Box::new(move || {
            let mut board = proved::Board::from(self.lent.board.clone());
            let tables = &self.lent.tables;
            let (time, sent) = timed(|| {
                (0..SINGLE_CALLS)
                    .map(|_| proved::serve(&mut board, &tables.numbers, &tables.lengths))
                    .collect::<Vec<(u8, Sent)>>()
            });
            let answers = sent.into_iter().map(|(code, sent)| (u32::from(code), sent));
            Round { time, hash: hash_of_serves(&board.into(), tables, answers) }
        });
        let second: Side = Box::new(move || {
            let mut lent = self.lent.clone();
            let (time, sent) = timed(|| (0..SINGLE_CALLS).map(|_| lent.serve()).collect::<Vec<_>>());
            let answers = sent.into_iter().map(|answer| (code_of(&answer), answer.expect("a block waits")));
            Round { time, hash: hash_of_serves(&lent.board, &lent.tables, answers) }
        });
        best_in_turn(rounds, [proved, second]).map(|time| time / SINGLE_CALLS as f64)
    }
}

fn hash_of_codes(board: &Board, tables: &Tables, codes: &[u32]) -> u64 {
    let mut hash = Hash::new();
    codes.iter().for_each(|&code| hash.take(code.into()));
    hash.take(digest(board, tables, None));
    hash.value()
}

fn hash_of_serves(board: &Board, tables: &Tables, answers: impl Iterator<Item = (u32, Sent)>) -> u64 {
    let mut hash = Hash::new();
    for (code, Sent { block, record, length, clock }) in answers {
        [code.into(), block.into(), record.into(), length.into(), clock].into_iter().for_each(|word| hash.take(word));
    }
    hash.take(digest(board, tables, None));
    hash.value()
}
