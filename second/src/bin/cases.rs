//! Reads a case file on standard input. `cases` writes the answers to standard output, `cases bytes` the byte form of
//! the file.

use second::case_text::{answers, byte_form};
use second::programs::answer_text;

fn main() -> Result<(), String> {
    answer_text("cases", answers, byte_form)
}
