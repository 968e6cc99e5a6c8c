//! A season's log: any number of bytes of ordinary traffic, written as it is made.

use std::io::{self, Write};

use super::log_maker::LogMaker;
use super::random::Random;
use super::traffic::Habits;

/// How many bytes of calls one way of working lasts.
const BYTES_OF_A_DAY: usize = 6_000;

/// Writes a log of at least so many bytes that ends with a whole field. Every code that a log can reach comes again and
/// again, and about two thirds of the bytes are passed over.
pub fn season(seed: u64, least_bytes: u64, out: &mut impl Write) -> io::Result<()> {
    let mut maker = LogMaker::new(Random::new(seed));
    let mut written = 0;
    let mut days = ways_of_working().into_iter().cycle();
    while written + (maker.log.len() as u64) < least_bytes {
        let habits = days.next().expect("the ways of working come again and again");
        maker.close_all();
        let bytes = maker.log.len() + BYTES_OF_A_DAY;
        maker.calls_until(bytes, &habits);
        let short = maker.random().between(0, 300) as usize;
        let any = maker.random().between(0, u16::MAX.into()) as usize;
        let length = maker.random().pick(&[0, short, short, short, short, short, any, u16::MAX.into()]);
        maker.pass_over(length);
        out.write_all(&maker.log)?;
        written += maker.log.len() as u64;
        maker.log.clear();
    }
    out.write_all(&maker.log)
}

/// A little of everything, few numbers, many places, full lanes, and numbers out of range.
fn ways_of_working() -> [Habits; 5] {
    let mixed = Habits::mixed();
    [
        mixed,
        Habits { open: 15, rename: 10, close: 15, numbers: 12, lowest_class: 2, ..mixed },
        Habits { open: 60, close: 2, numbers: 200, lowest_class: 9, ..mixed },
        Habits { open: 1, rename: 1, close: 1, record: 70, numbers: 3, ..mixed },
        Habits { out_of_range: 20, lowest_class: 0, ..mixed },
    ]
}
