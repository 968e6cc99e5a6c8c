//! Reports: what they say of stored logs, and what holds of accounts on every run.

use std::collections::BTreeMap;
use std::fs;
use std::path::{Path, PathBuf};

use second::account::{Account, Accounts, Full, MOST_CREDIT};
use second::engine::{Block, Engine, Told};
use second::listing::{self, Line};
use second::log::{Field, Reader, Stop, LOG_END};
use second::log_text;
use second::maker::log_maker::field_of;
use second::maker::log_shapes::LOG_SHAPES;
use second::maker::random::Random;
use second::maker::report_shapes::{REPORT_CASE_SHAPES, REPORT_SHAPES};
use second::maker::stories::stories;
use second::maker::traffic::{Call, Habits, Traffic};
use second::numbers::{credit, Bytes, Parts};
use second::play::play;
use second::report::{from_nothing, report, report_at, report_from, Counting, Report};
use second::report_case::ReportCase;

fn project() -> &'static Path {
    Path::new(env!("CARGO_MANIFEST_DIR")).parent().unwrap()
}

/// The texts of a folder of the project, by name.
fn texts(folder: &str) -> Vec<PathBuf> {
    let entries = fs::read_dir(project().join(folder)).unwrap().map(|entry| entry.unwrap().path());
    let mut texts: Vec<PathBuf> =
        entries.filter(|path| path.extension().is_some_and(|ending| ending == "txt")).collect();
    texts.sort();
    texts
}

fn text_in(path: &Path) -> String {
    fs::read_to_string(path).unwrap_or_else(|error| panic!("{}: {error}", path.display()))
}

fn report_of_text(text: &str) -> String {
    report(&log_text::bytes(text).unwrap())
}

fn report_of_case(text: &str) -> String {
    ReportCase::read(text).unwrap().report().to_string()
}

#[test]
fn the_worked_example_byte_for_byte() {
    let worked = text_in(&project().join("docs/worked.txt"));
    assert_eq!(report_of_text(&worked), "11 2 13107200 160 -2621440 2621440\n12 2 19660800 300 0 0\n");
}

#[test]
fn every_stored_log_and_report_case_has_the_report_that_is_stored() {
    let logs = texts("tests/logs");
    assert!(logs.len() >= 50, "{} stored logs", logs.len());
    for path in logs {
        assert_eq!(report_of_text(&text_in(&path)), text_in(&path.with_extension("report")), "{}", path.display());
    }
    let cases = texts("tests/report_cases");
    assert!(cases.len() >= 12, "{} stored report cases", cases.len());
    for path in cases {
        assert_eq!(report_of_case(&text_in(&path)), text_in(&path.with_extension("report")), "{}", path.display());
    }
}

#[test]
fn a_broken_or_long_log_has_the_last_line_of_its_listing_for_a_report() {
    for (name, shape) in LOG_SHAPES.iter().chain(&REPORT_SHAPES) {
        for seed in 1..=8 {
            let log = shape(seed);
            let last = *play(&log).last().unwrap();
            match last {
                Line::Stopped(stop) => assert_eq!(report(&log), format!("{stop}\n"), "{name} {seed}"),
                _ => assert!(!report(&log).contains(char::is_alphabetic), "{name} {seed}"),
            }
        }
    }
    assert_eq!(report(&[]), "broken 0\n");
    assert_eq!(report(&[0; 100_000]), "broken 0\n");
    assert_eq!(report_at(&[6, 0, 2, 0, 64, 5, 0, 0], LOG_END - 7), "long\n");
    assert_eq!(report_at(&[6, 0, 2, 0, 64, 5, 1, 0], LOG_END - 8), format!("broken {}\n", LOG_END - 3));
    assert_eq!(report(&[6, 0, 2, 0, 64]), "", "no block is open");
}

/// What a reader can add up by hand, from the log and its listing alone.
#[derive(Clone, Copy, PartialEq, Eq, Debug)]
struct ByHand {
    share: u32,
    slots: u64,
    bytes: u64,
    last_slot: Option<u64>,
}

/// Each `out` line tells bytes, and a slot if its clock is not that of the block's last line. Only calls that are done
/// open, close and rename.
fn by_hand(log: &[u8]) -> BTreeMap<u32, ByHand> {
    let (_, reader) = Reader::new(log, 0).begin().unwrap();
    let fields = reader.map(Result::unwrap).filter(|field| !matches!(field, Field::Other { .. }));
    let mut blocks = BTreeMap::new();
    for (field, line) in fields.zip(play(log)) {
        match (field, line) {
            (Field::Open { block, share }, Line::Open { code: 0, .. }) => {
                blocks.insert(block, ByHand { share, slots: 0, bytes: 0, last_slot: None });
            }
            (Field::Close { block }, Line::Close { code: 0, .. }) => drop(blocks.remove(&block)),
            (Field::Rename { old, new }, Line::Name { code: 0, .. }) => {
                let block = blocks.remove(&old).unwrap();
                blocks.insert(new, block);
            }
            (_, Line::Out(sent)) => {
                let block = blocks.get_mut(&sent.block).unwrap();
                block.slots += u64::from(block.last_slot != Some(sent.clock));
                block.bytes += u64::from(sent.length);
                block.last_slot = Some(sent.clock);
            }
            _ => {}
        }
    }
    blocks
}

#[test]
fn a_report_is_what_its_listing_adds_up_to() {
    let mut lines = 0;
    for (name, shape) in LOG_SHAPES.iter().chain(&REPORT_SHAPES) {
        for seed in 1..=8 {
            let log = shape(seed);
            if !matches!(play(&log).last(), Some(Line::End { .. })) {
                continue;
            }
            let (largest, _) = Reader::new(&log, 0).begin().unwrap();
            let mut counted = by_hand(&log);
            for line in report(&log).lines() {
                let words: Vec<&str> = line.split(' ').collect();
                let ByHand { share, slots, bytes, .. } = counted.remove(&words[0].parse().unwrap()).unwrap();
                let due = slots * credit(share, largest).0;
                let difference = i128::from(bytes) * 65_536 - i128::from(due);
                let expected = [slots.to_string(), due.to_string(), bytes.to_string(), difference.to_string()];
                assert_eq!(words[1..5], expected, "{name} {seed}");
                lines += 1;
            }
            assert!(counted.is_empty(), "{name} {seed}: {counted:?}");
        }
    }
    assert!(lines > 1_000, "{lines} lines");
}

fn habits(seed: u64) -> Habits {
    let mixed = Habits { out_of_range: 5, ..Habits::mixed() };
    match seed % 4 {
        0 => mixed,
        1 => Habits { open: 20, close: 20, rename: 12, lowest_class: 0, ..mixed },
        2 => Habits { record: 90, rename: 8, numbers: 6, lowest_class: 2, ..mixed },
        _ => Habits { open: 40, close: 3, numbers: 100, lowest_class: 7, ..mixed },
    }
}

fn traffic(seed: u64) -> Traffic {
    let mut random = Random::new(seed);
    let largest = random.pick(&[64, 100, 2_048]);
    Traffic::new(random, largest)
}

/// Credit given = got + lost + deficit; while its slot is open, what is left of it stands in the deficit's place.
fn assert_balanced(counting: &Counting, place: usize, block: &Block) {
    let account = counting.accounts.of(block.number);
    let kept = match counting.engine.slot {
        Some(slot) if slot.place == place => slot.left,
        _ => block.deficit,
    };
    assert_eq!(account.credit, account.got() + account.lost + kept, "{block:?}");
    assert!(account.difference() <= 0);
    assert_eq!(i128::from(account.difference()), i128::from(account.got().0) - i128::from(account.credit.0));
    assert_eq!(account.credit.0, account.slots * block.credit.0, "each slot gave its credit");
}

#[test]
fn every_account_balances_after_every_call_and_no_difference_is_above_0() {
    let (mut in_slot, mut with_deficit, mut with_lost) = (0, 0, 0);
    for seed in 0..200 {
        let mut traffic = traffic(seed);
        let beginnings = from_nothing();
        let mut counting = Counting::new(traffic.engine.largest, &beginnings);
        for _ in 0..1_500 {
            let call = traffic.any_call(&habits(seed));
            traffic.play(call);
            counting.take(field_of(call)).unwrap();
            for (place, block) in counting.engine.places.iter().enumerate() {
                let Some(block) = block else {
                    continue;
                };
                assert_balanced(&counting, place, block);
                with_deficit += usize::from(block.deficit.0 > 0);
                with_lost += usize::from(counting.accounts.of(block.number).lost.0 > 0);
            }
            in_slot += usize::from(counting.engine.slot.is_some());
        }
        assert_eq!(counting.engine, traffic.engine, "seed {seed}: counting changed the board");
    }
    assert!(in_slot > 10_000 && with_deficit > 10_000 && with_lost > 10_000, "{in_slot} {with_deficit} {with_lost}");
}

/// The accounts of a run by place are those of the same run without its renames, where each block keeps the number that
/// it opened with.
#[test]
fn renames_change_no_account() {
    let mut renames = 0;
    for seed in 0..100 {
        let mut traffic = traffic(seed);
        let beginnings = from_nothing();
        let mut renamed = Counting::new(traffic.engine.largest, &beginnings);
        let mut plain = Counting::new(traffic.engine.largest, &beginnings);
        // The number of each open block in the plain run: one more for each block, so that none comes twice.
        let mut plain_number = BTreeMap::new();
        for turn in 0..1_000 {
            let call = traffic.any_call(&Habits { rename: 12, ..Habits::mixed() });
            let done = traffic.play(call) == 0;
            renamed.take(field_of(call)).unwrap();
            let of = |block: &u32| *plain_number.get(block).unwrap_or(&u32::MAX);
            match call {
                _ if !done => {}
                Call::Rename { old, new } => {
                    let number = plain_number.remove(&old).unwrap();
                    plain_number.insert(new, number);
                    renames += 1;
                }
                Call::Open { block, share } => {
                    plain_number.insert(block, turn + 1);
                    plain.take(Field::Open { block: turn + 1, share }).unwrap();
                }
                Call::Close { block } => {
                    let block = plain_number.remove(&block).unwrap();
                    plain.take(Field::Close { block }).unwrap();
                }
                Call::Record { block, number, length } => {
                    plain.take(Field::Record { block: of(&block), number, length }).unwrap();
                }
                _ => plain.take(field_of(call)).unwrap(),
            }
        }
        let accounts = |counting: &Counting| counting.blocks().into_iter().map(|(_, account)| account).collect();
        let (with, without): (Vec<Account>, Vec<Account>) = (accounts(&renamed), accounts(&plain));
        assert_eq!(with, without, "seed {seed}");
    }
    assert!(renames > 1_000, "{renames} renames");
}

/// A send of one byte in a slot that begins with this credit.
fn begins(credit: u64) -> Told {
    Told { credit_given: Some(Parts(credit)), bytes: Bytes(1), left: Parts(credit - 65_536), lane_is_empty: false }
}

#[test]
fn the_counting_stops_at_a_slot_that_goes_above_2_to_the_62_and_not_before() {
    let given = 1 << 22;
    for (before, counted) in [
        (MOST_CREDIT.0 - given - 1, true),
        (MOST_CREDIT.0 - given, true),
        (MOST_CREDIT.0 - given + 1, false),
        (MOST_CREDIT.0 - 1, false),
        (MOST_CREDIT.0, false),
    ] {
        let account = Account { slots: 9, credit: Parts(before), sent: Bytes(0), lost: Parts(before) };
        let mut after = account;
        if counted {
            assert_eq!(after.count(&begins(given)), Ok(()));
            assert_eq!((after.slots, after.credit), (10, Parts(before + given)));
        } else {
            assert_eq!(after.count(&begins(given)), Err(Full));
            assert_eq!(after, account, "nothing of that send is counted");
        }
    }
    assert_eq!(MOST_CREDIT.0, 4_611_686_018_427_387_904);
}

/// Sends in a slot that is open go on being counted at the limit: they give no credit.
#[test]
fn at_the_limit_only_another_slot_stops_the_counting() {
    let mut account = Account { slots: 1, credit: MOST_CREDIT, sent: Bytes(0), lost: Parts(0) };
    let within = Told { credit_given: None, ..begins(1 << 22) };
    assert_eq!(account.count(&within), Ok(()));
    assert_eq!(account, Account { slots: 1, credit: MOST_CREDIT, sent: Bytes(1), lost: Parts(0) });
}

/// The serve at which the counting stops is done like any other, and so is all that follows.
#[test]
fn no_board_differs_for_full() {
    let mut reached = 0;
    for seed in 1..=100 {
        let case = ReportCase::read(&REPORT_CASE_SHAPES[0].1(seed)).unwrap();
        let (largest, reader) = Reader::new(&case.log, 0).begin().unwrap();
        let (handed_in, nothing) = (case.beginnings(), from_nothing());
        let mut near = Counting::new(largest, &handed_in);
        let mut plain = Counting::new(largest, &nothing);
        for field in reader.map_while(Result::ok) {
            reached += usize::from(near.take(field) == Err(Full));
            plain.take(field).unwrap();
            assert_eq!(near.engine, plain.engine, "seed {seed}");
        }
    }
    assert!(reached > 50, "full is reached {reached} times");
}

/// The first met decides, of full, broken and long.
#[test]
fn what_is_met_first_decides() {
    let counts = "counts 0 1099511627775 4611686018423193601 70368744177600 1\n";
    let log = "largest 64\nopen 7 65536\nrecord 7 1 64\nserve\n";
    assert_eq!(report_of_case(&format!("{counts}{log}")), "full\n");
    assert_eq!(report_of_case(&format!("{counts}{log}raw 00\n")), "full\n");
    assert_eq!(report_of_case(&format!("{counts}largest 64\nopen 7 65536\nraw 00\nserve\n")), "broken 16\n");
    let case = ReportCase::read(&format!("{counts}{log}serve\n")).unwrap();
    let report_from_offset = |first| report_from(Reader::new(&case.log, first), &case.beginnings()).to_string();
    assert_eq!(report_from_offset(LOG_END - 32), "full\n", "the field that fills ends just before 2^48");
    assert_eq!(report_from_offset(LOG_END - 31), "long\n");
}

#[test]
fn accounts_start_at_opening_pass_through_a_rename_and_vanish_at_close() {
    let mut accounts = Accounts::default();
    accounts.opened(1, Account::default());
    accounts.sent(1, &begins(1 << 22)).unwrap();
    let counted = *accounts.of(1);
    assert_eq!(counted, Account { slots: 1, credit: Parts(1 << 22), sent: Bytes(1), lost: Parts(0) });
    accounts.renamed(1, 2);
    assert_eq!(*accounts.of(2), counted);
    accounts.opened(1, Account::default());
    assert_eq!(*accounts.of(1), Account::default());
    accounts.closed(2);
    accounts.opened(2, Account::default());
    assert_eq!(*accounts.of(2), Account::default());
}

#[test]
fn a_send_tells_what_the_rules_say_of_it() {
    let mut engine = Engine::fresh(100);
    engine.open(7, 49_152).unwrap();
    for (number, length) in [(1, 100), (2, 50), (3, 60), (4, 10)] {
        engine.record(7, second::engine::Record { number, length }).unwrap();
    }
    let credit = Some(Bytes(150).in_parts());
    let told = |credit_given, bytes, left, lane_is_empty| Told {
        credit_given,
        bytes: Bytes(bytes),
        left: Bytes(left).in_parts(),
        lane_is_empty,
    };
    let expected =
        [told(credit, 100, 50, false), told(None, 50, 0, false), told(credit, 60, 90, false), told(None, 10, 80, true)];
    for expected in expected {
        assert_eq!(engine.serve_and_tell().unwrap().1, expected);
    }
}

#[test]
fn each_stored_log_and_each_shape_tells_the_story_that_it_is_named_for() {
    let stored = |name: &str| stories(&log_text::bytes(&text_in(&project().join("tests/logs").join(name))).unwrap());
    for (name, wanted) in [
        ("report-open-slot.txt", vec!["open-slot", "below", "idle"]),
        ("report-deficit.txt", vec!["below"]),
        ("report-lost.txt", vec!["below", "lost"]),
        ("report-rename.txt", vec!["below", "lost", "renamed", "renamed-in-slot"]),
        ("report-rename-swap.txt", vec!["below", "lost", "renamed"]),
        ("report-reopen.txt", vec!["even", "idle", "reopened"]),
        ("report-reopen-elsewhere.txt", vec!["below", "idle", "lost", "reopened", "reopened-elsewhere"]),
        ("report-idle.txt", vec!["even", "idle"]),
        ("report-empty.txt", vec!["empty"]),
        ("report-broken.txt", vec!["broken"]),
    ] {
        assert_eq!(stored(name), wanted.into_iter().collect(), "{name}");
    }
    for (name, shape) in REPORT_SHAPES {
        for seed in 1..=20 {
            let told = stories(&shape(seed));
            let wanted: &[&str] = match name {
                "renamed" => &["renamed", "renamed-in-slot"],
                "emptied" => &["empty"],
                "deep" => &["below", "lost"],
                "cut" => &["broken"],
                _ => &[name],
            };
            assert!(wanted.iter().all(|story| told.contains(story)), "{name} {seed}: {told:?}");
        }
    }
    let deep = report(&REPORT_SHAPES.iter().find(|(name, _)| *name == "deep").unwrap().1(1));
    assert!(deep.split(' ').nth(1).unwrap().parse::<u64>().unwrap() > 2_000, "{deep}");
}

#[test]
fn made_report_cases_come_on_both_sides_of_the_limit() {
    let reports: Vec<Report> =
        (1..=60).map(|seed| ReportCase::read(&REPORT_CASE_SHAPES[0].1(seed)).unwrap().report()).collect();
    let full = reports.iter().filter(|report| **report == Report::Full).count();
    let broken = reports.iter().filter(|report| matches!(report, Report::Stopped(Stop::Broken { .. }))).count();
    assert!((10..50).contains(&full) && broken > 2 && full + broken < 55, "{full} full, {broken} broken");
}

#[test]
fn the_bytes_of_a_report_case() {
    let case = ReportCase::read("counts 63 1 4194304 63 65536\ncounts 0 0 0 0 0\n\nlargest 64\nserve\n").unwrap();
    let mut bytes = vec![2];
    for value in [63_u64, 1, 4_194_304, 63, 65_536, 0, 0, 0, 0, 0] {
        bytes.extend(value.to_be_bytes());
    }
    bytes.extend([6, 0, 2, 0, 64, 5, 0, 0]);
    assert_eq!(case.bytes(), bytes);
    assert_eq!(ReportCase::read("").unwrap().bytes(), [0]);
}

#[test]
fn the_bytes_that_the_page_shows() {
    let page = text_in(&project().join("docs/CASES.md"));
    let (_, case) = fenced(&page, &["case"]).pop().unwrap();
    let bytes = ReportCase::read(&case).unwrap().bytes();
    let hex: String = bytes.iter().map(|byte| format!("{byte:02x}")).collect();
    assert!(page.replace(char::is_whitespace, "").contains(&hex), "{hex}");
    assert!(page.contains(&format!("The second example has the {} bytes", bytes.len())));
}

#[test]
fn counts_that_no_block_can_have_are_refused_by_their_line() {
    for line in [
        "counts",
        "counts 0 0 0 0",
        "counts 0 0 0 0 0 0",
        "counts 64 0 0 0 0",
        "counts 0 0 65536 0 0",
        "counts 0 0 65536 1 1",
        "counts 0 0 65535 1 0",
        "counts 0 1 4194303 63 65535",
        "counts 0 2 8388607 127 65535",
        "counts 0 0 4611686018427387905 70368744177664 1",
        "counts 0 0 18446744073709551615 0 18446744073709551615",
        "counts 0 0 0 281474976710656 0",
        "counts 0 0 -1 0 -1",
        "counts 5 0 0 0 0\ncounts 5 0 0 0 0",
        "largest 64\ncounts 0 0 0 0 0",
        "bogus",
    ] {
        let Err(message) = ReportCase::read(&format!("# a case\n\n{line}\n")) else {
            panic!("{line} is read");
        };
        let number = 2 + line.lines().count();
        assert!(message.starts_with(&format!("line {number}: ")), "{line}: {message}");
    }
}

/// The fenced texts of a page with one of these marks, each with its mark.
fn fenced(page: &str, marks: &[&str]) -> Vec<(String, String)> {
    let pieces = page.split("```").skip(1).step_by(2);
    let marked = pieces.map(|piece| piece.split_once('\n').expect("a fence has a line of its own"));
    marked.filter(|(mark, _)| marks.contains(mark)).map(|(mark, text)| (mark.to_string(), text.to_string())).collect()
}

/// A log or a case is followed by its report, its listing or both.
#[test]
fn the_examples_of_the_pages_are_right() {
    for (page, least) in [("docs/REPORT.md", 4), ("docs/CASES.md", 2)] {
        let mut log = String::new();
        let mut compared = 0;
        for (mark, text) in fenced(&text_in(&project().join(page)), &["log", "case", "listing", "report"]) {
            match mark.as_str() {
                "listing" => assert_eq!(listing::text(&play(&log_text::bytes(&log).unwrap())), text, "{page}: {log}"),
                "report" => assert_eq!(report_of_case(&log), text, "{page}: {log}"),
                _ => log = text,
            }
            compared += usize::from(mark == "listing" || mark == "report");
        }
        assert!(compared >= least, "{page}: {compared} examples");
    }
}
