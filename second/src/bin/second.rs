//! Reads a log on standard input and writes its listing to standard output. `second FOLDER` plays each NAME.log of a
//! folder to NAME.listing, so that thousands of logs cost one start.

use second::programs::answer_logs;
use second::{listing, play};

fn main() -> Result<(), String> {
    answer_logs("listing", |log| listing::text(&play::play(log)))
}
