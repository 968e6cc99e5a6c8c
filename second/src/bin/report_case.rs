//! Reads a report case on standard input. `report_case` writes its report to standard output, `report_case bytes` its
//! byte form.

use second::programs::answer_text;
use second::report_case::ReportCase;

fn main() -> Result<(), String> {
    let report = |text: &str| Ok(ReportCase::read(text)?.report().to_string());
    let bytes = |text: &str| Ok(ReportCase::read(text)?.bytes());
    answer_text("report_case", report, bytes)
}
