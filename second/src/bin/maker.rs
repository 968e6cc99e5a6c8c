//! Makes logs, case files, report cases and feed cases by shape and seed, cuts logs into feed cases, turns a log into
//! readable lines and back, and tells what the reports of a folder's logs and its feed cases are a test of.

use std::collections::BTreeSet;
use std::env;
use std::fs;
use std::io;
use std::path::Path;

use second::feed_case::{FeedCases, Kind};
use second::log_text;
use second::maker::case_shapes::CASE_SHAPES;
use second::maker::cuts::{self, cuts};
use second::maker::feed_shapes::FEED_SHAPES;
use second::maker::log_shapes::{LogShape, LOG_SHAPES};
use second::maker::report_shapes::{REPORT_CASE_SHAPES, REPORT_SHAPES};
use second::maker::season::season;
use second::maker::stories::stories;
use second::programs::{files_of, input, read, text_of, write};
use second::words::number;

const USE: &str = "use: maker log SHAPE SEED, maker logs SHAPE SEEDS FOLDER, maker season SEED BYTES, \
     maker cases SHAPE SEED, maker report_case SHAPE SEED, maker feed_case SHAPE SEED, \
     maker cuts KIND SEED [FOLDER], maker shapes, maker stories FOLDER, maker feed_stories FOLDER, maker text, \
     or maker bytes";

fn main() -> Result<(), String> {
    let arguments: Vec<String> = env::args().skip(1).collect();
    let words: Vec<&str> = arguments.iter().map(String::as_str).collect();
    let output = match words[..] {
        ["log", shape, seed] => log_shape(shape)?(any(seed)?),
        ["logs", shape, seeds, folder] => return write_logs(shape, log_shape(shape)?, any(seeds)?, Path::new(folder)),
        ["season", seed, bytes] => {
            return season(any(seed)?, any(bytes)?, &mut io::stdout()).map_err(|error| error.to_string())
        }
        ["cases", shape, seed] => shape_named(&CASE_SHAPES, shape)?(any(seed)?).into_bytes(),
        ["report_case", shape, seed] => shape_named(&REPORT_CASE_SHAPES, shape)?(any(seed)?).into_bytes(),
        ["feed_case", shape, seed] => shape_named(&FEED_SHAPES, shape)?(any(seed)?),
        ["cuts", kind, seed] => cuts(kind_named(kind)?, any(seed)?, &input()?),
        ["cuts", kind, seed, folder] => return write_cuts(kind_named(kind)?, any(seed)?, Path::new(folder)),
        ["shapes"] => shapes().into_bytes(),
        ["stories", folder] => stories_of(Path::new(folder), "log", |log| Ok(stories(log)))?.into_bytes(),
        ["feed_stories", folder] => stories_of(Path::new(folder), "cuts", feed_stories)?.into_bytes(),
        ["text"] => log_text::text(&input()?).into_bytes(),
        ["bytes"] => log_text::bytes(&text_of(input()?)?)?,
        _ => return Err(USE.to_string()),
    };
    write(&output)
}

fn any(word: &str) -> Result<u64, String> {
    number(word, u64::MAX)
}

/// Writes the logs of the seeds from 1 on to files SHAPE-SEED.log.
fn write_logs(name: &str, shape: LogShape, seeds: u64, folder: &Path) -> Result<(), String> {
    for seed in 1..=seeds {
        fs::write(folder.join(format!("{name}-{seed}.log")), shape(seed)).map_err(|error| error.to_string())?;
    }
    Ok(())
}

/// Cuts each NAME.log of a folder to NAME.cuts.
fn write_cuts(kind: Kind, seed: u64, folder: &Path) -> Result<(), String> {
    for log in files_of(folder, "log")? {
        let file = cuts(kind, seed, &read(&log)?);
        fs::write(log.with_extension("cuts"), file).map_err(|error| error.to_string())?;
    }
    Ok(())
}

fn kind_named(word: &str) -> Result<Kind, String> {
    match word {
        "listing" => Ok(Kind::Listing),
        "report" => Ok(Kind::Report),
        _ => Err(format!("{word} is neither listing nor report")),
    }
}

/// Logs for their listings and logs for their reports are made in the same way.
fn log_shape(wanted: &str) -> Result<LogShape, String> {
    shape_named(&[&LOG_SHAPES[..], &REPORT_SHAPES[..]].concat(), wanted)
}

fn shape_named<S: Copy>(shapes: &[(&str, S)], wanted: &str) -> Result<S, String> {
    match shapes.iter().find(|(name, _)| *name == wanted) {
        Some((_, shape)) => Ok(*shape),
        None => Err(format!("no shape {wanted}; maker shapes lists them")),
    }
}

fn shapes() -> String {
    let logs = names("log", &LOG_SHAPES).chain(names("report", &REPORT_SHAPES));
    let cases = names("cases", &CASE_SHAPES).chain(names("report_case", &REPORT_CASE_SHAPES));
    logs.chain(cases).chain(names("feed_case", &FEED_SHAPES)).collect()
}

fn names<'a, S>(kind: &'a str, shapes: &'a [(&str, S)]) -> impl Iterator<Item = String> + 'a {
    shapes.iter().map(move |(name, _)| format!("{kind} {name}\n"))
}

/// A row 'NAME STORY' for each story of each NAME.ENDING of a folder.
fn stories_of(
    folder: &Path,
    ending: &str,
    stories: impl Fn(&[u8]) -> Result<BTreeSet<&'static str>, String>,
) -> Result<String, String> {
    let mut rows = String::new();
    for path in files_of(folder, ending)? {
        let name = path.file_stem().expect("a file of a folder has a name").to_string_lossy();
        rows.extend(stories(&read(&path)?)?.iter().map(|story| format!("{name} {story}\n")));
    }
    Ok(rows)
}

/// The stories of all cases of a file.
fn feed_stories(file: &[u8]) -> Result<BTreeSet<&'static str>, String> {
    let mut told = BTreeSet::new();
    for case in FeedCases::of(file) {
        told.extend(cuts::stories(&case?));
    }
    Ok(told)
}
