//! Whole logs in memory, played to their listings.

use second::engine::{Engine, Record};
use second::listing;
use second::log::Field;
use second::maker::log_shapes::LOG_SHAPES;
use second::maker::random::Random;
use second::maker::season::season;
use second::numbers::WHOLE_LINE;
use second::play::play;

use crate::lean;
use crate::proved;
use crate::timing::{best_in_turn, timed, Hash, Round, Side};

const SEEDS: u64 = 8;

/// A season's log is read by so many bytes, and its lines are written by so many.
const FRAGMENT: usize = 1 << 16;

/// No other log that is measured has more bytes.
const MOST_BYTES: usize = 30_000;

/// No listing of such a log is longer: a serve of 3 bytes gives a line of less than 64.
const LISTING_ROOM: usize = 1 << 20;

pub struct Logs {
    logs: Vec<Vec<u8>>,
    pub fields: usize,
}

impl Logs {
    fn new(logs: Vec<Vec<u8>>) -> Logs {
        let fields = logs.iter().map(|log| play(log).len()).sum();
        Logs { logs, fields }
    }

    /// The maker's logs of a shape.
    pub fn of_shape(name: &str) -> Logs {
        let (_, shape) = LOG_SHAPES.iter().find(|(shape, _)| *shape == name).expect("the maker has this shape");
        Logs::new((1..=SEEDS).map(shape).collect())
    }

    /// Logs that are a record and a serve in turn, once the blocks are open and have four records each. Numbers of
    /// blocks and records count up from the first.
    pub fn of_pairs(blocks: u32, first: u32) -> Logs {
        Logs::new((1..=SEEDS).map(|seed| pairs(Random::new(seed), blocks, first)).collect())
    }

    /// The box with pieces of two sizes, the second program, and the second program with lines written by hand.
    pub fn measure(&self, rounds: usize) -> [f64; 4] {
        let own = |log: &[u8]| listing::text(&play(log)).into_bytes();
        let lean = |log: &[u8]| lean::text(&play(log));
        best_in_turn(rounds, [self.proved(4_096), self.proved(65_536), self.second(own), self.second(lean)])
    }

    fn proved(&self, piece: usize) -> Side<'_> {
        let mut piece = vec![0; piece];
        let mut outs = vec![vec![0; LISTING_ROOM]; self.logs.len()];
        let mut lengths = vec![0; self.logs.len()];
        Box::new(move || {
            let (time, ()) = timed(|| {
                for (index, log) in self.logs.iter().enumerate() {
                    lengths[index] = proved::listing(log, &mut piece, &mut outs[index]);
                }
            });
            let mut hash = Hash::new();
            outs.iter().zip(&lengths).for_each(|(out, &length)| hash.take_bytes(&out[..length]));
            Round { time, hash: hash.value() }
        })
    }

    fn second<'a>(&'a self, listing_of: impl Fn(&[u8]) -> Vec<u8> + 'a) -> Side<'a> {
        Box::new(move || {
            let (time, listings) = timed(|| self.logs.iter().map(|log| listing_of(log)).collect::<Vec<_>>());
            let mut hash = Hash::new();
            listings.iter().for_each(|listing| hash.take_bytes(listing));
            Round { time, hash: hash.value() }
        })
    }
}

/// A season's log: the box takes it in fragments and writes to one buffer, as the program does; the second program has
/// it whole and writes lean lines.
pub struct Season {
    log: Vec<u8>,
}

impl Season {
    pub fn new(bytes: usize) -> Season {
        let mut log = Vec::new();
        season(1, bytes as u64, &mut log).expect("memory takes it");
        Season { log }
    }

    pub fn bytes(&self) -> usize {
        self.log.len()
    }

    pub fn measure(&self, rounds: usize) -> [f64; 2] {
        best_in_turn(rounds, [self.proved(), self.second()])
    }

    fn proved(&self) -> Side<'_> {
        let mut out = vec![0; FRAGMENT];
        Box::new(move || {
            let mut text = Vec::with_capacity(4 * self.log.len());
            let (time, ()) = timed(|| {
                let mut feeder = proved::Feeding::new();
                self.log.chunks(FRAGMENT).for_each(|fragment| feeder.feed(fragment, &mut out, &mut text));
                feeder.finish(&mut out, &mut text);
            });
            Round { time, hash: hash_of(&text) }
        })
    }

    fn second(&self) -> Side<'_> {
        Box::new(|| {
            let (time, text) = timed(|| lean::text(&play(&self.log)));
            Round { time, hash: hash_of(&text) }
        })
    }
}

fn hash_of(text: &[u8]) -> u64 {
    let mut hash = Hash::new();
    hash.take_bytes(text);
    hash.value()
}

fn pairs(mut random: Random, blocks: u32, first: u32) -> Vec<u8> {
    let largest = 1_024;
    let mut log = Vec::new();
    let mut engine = Engine::fresh(largest);
    let mut numbers = first..;
    let mut record_for = |block: u32, random: &mut Random, engine: &mut Engine, log: &mut Vec<u8>| {
        let record = Record { number: numbers.next().unwrap_or(0), length: random.between(1, largest.into()) as u16 };
        Field::Record { block, number: record.number, length: record.length }.write(log);
        engine.record(block, record).expect("a lane has room");
    };
    Field::Largest { largest: largest as u16 }.write(&mut log);
    for block in first..first + blocks {
        let share = random.between(1, u64::from(WHOLE_LINE / blocks)) as u32;
        Field::Open { block, share }.write(&mut log);
        engine.open(block, share).expect("the shares fit");
        for _ in 0..4 {
            record_for(block, &mut random, &mut engine, &mut log);
        }
    }
    // A record and a serve take 16 bytes.
    while log.len() + 16 <= MOST_BYTES {
        Field::Serve.write(&mut log);
        let sent = engine.serve().expect("a block waits");
        record_for(sent.block, &mut random, &mut engine, &mut log);
    }
    log
}
