//! Times the proved box against the plain second program and prints the tables of docs/SPEED.md. `bench ROUNDS` runs so
//! many rounds of each case.

mod boards;
mod lean;
mod logs;
mod proved;
mod timing;

use std::env;

use boards::Busy;
use logs::{Logs, Season};

const BUSY: [usize; 3] = [4, 16, 64];

/// The first of many numbers of ten digits.
const TEN_DIGITS: u32 = 4_000_000_001;

/// The bytes of a season's log: enough for some seventy fragments.
const SEASON: usize = 4 << 20;

/// A round of a side lasts a few milliseconds at most, so that a best one falls between two interruptions.
const ROUNDS: usize = 400;

fn main() {
    let rounds = env::args().nth(1).map_or(ROUNDS, |word| word.parse().expect("use: bench [ROUNDS]"));
    println!("Best of {rounds} rounds, each side in turn; nanoseconds for each field, record or call.\n");
    logs(rounds);
    season(rounds);
    bursts(rounds);
    single_calls(rounds);
}

fn logs(rounds: usize) {
    println!(
        "| within a log, for each field | busy blocks | box, pieces of 4,096 | pieces of 65,536 \
         | second | ratio | ratio | second, lean lines | ratio | ratio |"
    );
    println!("|---|---|---|---|---|---|---|---|---|---|");
    let of_shapes = BUSY.map(|blocks| ("whole log", blocks, Logs::of_shape(&format!("busy{blocks}"))));
    let of_pairs = |what, first| BUSY.map(|blocks| (what, blocks, Logs::of_pairs(blocks as u32, first)));
    let in_turn = of_pairs("record and serve in turn", 1);
    let ten_digits = of_pairs("the same, numbers of ten digits", TEN_DIGITS);
    for (what, blocks, logs) in of_shapes.into_iter().chain(in_turn).chain(ten_digits) {
        let [small, large, second, lean] = logs.measure(rounds).map(|time| time / logs.fields as f64);
        let to_second = format!("**{:.2}** | {:.2}", small / second, large / second);
        let to_lean = format!("{:.2} | {:.2}", small / lean, large / lean);
        println!("| {what} | {blocks} | {small:.1} | {large:.1} | {second:.1} | {to_second} | {lean:.1} | {to_lean} |");
    }
}

fn season(rounds: usize) {
    println!(
        "\n| a log in fragments of 65,536 | box, bytes a second | second, lean lines, the log whole | ratio of times |"
    );
    println!("|---|---|---|---|");
    let season = Season::new(SEASON);
    // A round takes a hundred times as long as one of the others.
    let [fed, lean] = season.measure(rounds.div_ceil(20));
    let speed = |time: f64| season.bytes() as f64 / time * 1e9;
    println!("| a season | {:.0} | {:.0} | {:.2} |", speed(fed), speed(lean), fed / lean);
}

fn bursts(rounds: usize) {
    println!(
        "\n| burst of full lanes, for each record | busy blocks | box, public call | second's engine | ratio \
         | second, public call | ratio |"
    );
    println!("|---|---|---|---|---|---|---|");
    for blocks in BUSY {
        let busy = Busy::new(blocks, 32);
        let records = (busy.records() * busy.boards()) as f64;
        let [proved, engine, public] = busy.measure_bursts(rounds).map(|time| time / records);
        let (to_engine, to_public) = (proved / engine, proved / public);
        println!(
            "| burst | {blocks} | {proved:.1} | {engine:.1} | **{to_engine:.2}** | {public:.1} | {to_public:.2} |"
        );
    }
}

fn single_calls(rounds: usize) {
    println!("\n| public single call | busy blocks | box | second | ratio |");
    println!("|---|---|---|---|---|");
    for blocks in BUSY {
        let busy = Busy::new(blocks, 16);
        for (what, [proved, second]) in [
            ("record", busy.measure_records(rounds)),
            ("serve", busy.measure_serves(rounds)),
            ("the spoilt test alone", busy.measure_checks(rounds)),
        ] {
            println!("| {what} | {blocks} | {proved:.0} | {second:.0} | **{:.2}** |", proved / second);
        }
    }
}
