//! Reads a feed case file on standard input and writes what is made of its cases to standard output. `feed_case FOLDER`
//! answers each NAME.cuts of a folder to NAME.answers.

use second::feed_case::answers;
use second::programs::answer_files;

fn main() -> Result<(), String> {
    answer_files("cuts", "answers", answers)
}
