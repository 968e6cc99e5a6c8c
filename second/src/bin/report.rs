//! Reads a log on standard input and writes its report to standard output. `report FOLDER` reports each NAME.log of a
//! folder to NAME.report, so that thousands of logs cost one start.

use second::programs::answer_logs;
use second::report::report;

fn main() -> Result<(), String> {
    answer_logs("report", report)
}
