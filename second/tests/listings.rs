//! Logs and their listings, byte for byte.

use std::collections::BTreeSet;

use second::listing::{self, Line};
use second::log::{Field, Reader, Stop};
use second::log_text;
use second::maker::log_shapes::{LogShape, LOG_SHAPES, SEEDS_OF_SHARES};
use second::maker::random::Random;
use second::numbers::{class_of, interval, WHOLE_LINE};
use second::play::play;

const WORKED_LOG: [u8; 110] = [
    6, 0, 2, 0, 100, // L
    1, 0, 8, 0, 0, 0, 11, 0, 0, 128, 0, // open
    1, 0, 8, 0, 0, 0, 12, 0, 0, 96, 0, //
    4, 0, 10, 0, 0, 0, 11, 0, 0, 0, 1, 0, 100, // record
    4, 0, 10, 0, 0, 0, 11, 0, 0, 0, 2, 0, 60, //
    4, 0, 10, 0, 0, 0, 12, 0, 0, 0, 3, 0, 100, //
    4, 0, 10, 0, 0, 0, 12, 0, 0, 0, 4, 0, 100, //
    4, 0, 10, 0, 0, 0, 12, 0, 0, 0, 5, 0, 100, //
    5, 0, 0, 5, 0, 0, 5, 0, 0, 5, 0, 0, 5, 0, 0, 5, 0, 0, // serve
];

const WORKED_LISTING: &str =
    "open 11 0\nopen 12 0\nin 1 0\nin 2 0\nin 3 0\nin 4 0\nin 5 0\nout 11 1 100 2\nout 11 2 60 4
out 12 3 100 5\nout 12 4 100 8\nout 12 5 100 8\nout - 1\nend 9 460 0\n";

fn listing(log: &[u8]) -> String {
    listing::text(&play(log))
}

fn listing_of_text(text: &str) -> String {
    listing(&log_text::bytes(text).unwrap())
}

#[test]
fn the_worked_example_byte_for_byte() {
    assert_eq!(listing(&WORKED_LOG), WORKED_LISTING);
}

#[test]
fn every_cut_of_the_worked_log_is_broken_at_its_last_field_or_ends() {
    let field_starts = [0, 5, 16, 27, 40, 53, 66, 79, 92, 95, 98, 101, 104, 107, 110];
    for end in 0..WORKED_LOG.len() {
        let last = *field_starts.iter().rfind(|&&start| start <= end).unwrap();
        let text = listing(&WORKED_LOG[..end]);
        if last == end && end > 0 {
            assert!(text.lines().last().unwrap().starts_with("end "), "cut at {end}");
        } else {
            assert!(text.ends_with(&format!("broken {last}\n")), "cut at {end}: {text}");
            let lines_before = field_starts.iter().filter(|&&start| 5 <= start && start < last).count();
            assert_eq!(text.lines().count(), lines_before + 1);
        }
    }
}

#[test]
fn a_first_field_that_is_not_l_in_range_is_broken_0() {
    for log in [
        &[][..],
        &[6],
        &[6, 0, 2, 0],
        &[6, 0, 1, 64],
        &[6, 0, 3, 0, 64, 0],
        &[6, 0, 2, 0, 63],
        &[6, 0, 2, 8, 1],
        &[5, 0, 0],
        &[128, 0, 0, 6, 0, 2, 0, 100],
        &[0, 0, 2, 0, 100],
        &[7, 0, 2, 0, 100],
    ] {
        assert_eq!(listing(log), "broken 0\n", "{log:?}");
    }
    assert_eq!(listing(&[6, 0, 2, 0, 64]), "end 0 0 0\n");
    assert_eq!(listing(&[6, 0, 2, 8, 0]), "end 0 0 0\n");
}

#[test]
fn a_later_field_that_is_not_whole_is_broken_where_it_begins() {
    for tail in [
        "raw 00",
        "raw 000000",
        "raw 070000",
        "raw 7f0000",
        "raw 0500",
        "raw 05000100",
        "raw 0200030000",
        "raw 0100070000000000",
        "raw 800001",
    ] {
        assert_eq!(listing_of_text(&format!("largest 100\nopen 1 1\n{tail}\n")), "open 1 0\nbroken 16\n", "{tail}");
        assert_eq!(
            listing_of_text(&format!("largest 100\nopen 1 1\n{tail}\nserve\n")).lines().next(),
            Some("open 1 0"),
            "{tail}"
        );
    }
    assert_eq!(listing_of_text("largest 100\nserve\nlargest 100\nserve\n"), "out - 1\nbroken 8\n");
    assert_eq!(listing_of_text("largest 100\nserve\nraw 06000163\nserve\n"), "out - 1\nbroken 8\n");
}

#[test]
fn passed_over_tags_have_any_length_and_no_line() {
    let largest_value = "ab".repeat(65_535);
    let text = format!("largest 100\nother 128\nother 255 00\nother 200 {largest_value}\nserve\n");
    assert_eq!(listing_of_text(&text), "out - 1\nend 0 0 0\n");
    assert_eq!(listing_of_text(&text.replace("serve", "raw 00")), format!("broken {}\n", 5 + 3 + 4 + 3 + 65_535));
}

#[test]
fn a_log_goes_on_as_ever_behind_any_number_of_bytes() {
    for passed_over in [32_640, 32_650, 32_660, 65_535] {
        let (largest, after_largest) = WORKED_LOG.split_at(5);
        let length = (passed_over as u16).to_be_bytes();
        let log = [largest, &[128], &length, &vec![5; passed_over], after_largest].concat();
        assert_eq!(listing(&log), WORKED_LISTING, "{passed_over}");
        let many = [&log[..], &log[5..], &log[5..]].concat();
        assert!(listing(&many).starts_with(WORKED_LISTING.trim_end_matches("end 9 460 0\n")), "{passed_over}");
        assert!(listing(&many).lines().last().unwrap().starts_with("end "), "{passed_over}");
    }
    assert_eq!(listing(&vec![0; 100_000]), "broken 0\n");
}

/// The kind of a line and its code, as far as it has one.
fn kind_and_code(line: &Line) -> (&'static str, u32) {
    match *line {
        Line::Open { code, .. } => ("open", code),
        Line::Close { code, .. } => ("close", code),
        Line::Name { code, .. } => ("name", code),
        Line::In { code, .. } => ("in", code),
        Line::Out(_) => ("out", 0),
        Line::NothingOut { code } => ("out", code),
        Line::End { .. } => ("end", 0),
        Line::Stopped(Stop::Broken { .. }) => ("broken", 0),
        Line::Stopped(Stop::Long) => ("long", 0),
    }
}

/// All that a log in memory can reach. Code 11 needs a clock of 2^62, and a start moves it by 2^16 at most.
fn reachable() -> BTreeSet<(&'static str, u32)> {
    let kinds: [(&str, &[u32]); 7] = [
        ("open", &[0, 4, 5, 7, 8]),
        ("close", &[0, 6, 10]),
        ("name", &[0, 4, 5, 6]),
        ("in", &[0, 4, 6, 9]),
        ("out", &[0, 1]),
        ("end", &[0]),
        ("broken", &[0]),
    ];
    kinds.iter().flat_map(|(kind, codes)| codes.iter().map(|&code| (*kind, code))).collect()
}

#[test]
fn the_log_shapes_reach_every_line_with_every_code_with_any_seed() {
    for seed in [1, 2, 3] {
        let reached: BTreeSet<_> =
            LOG_SHAPES.iter().flat_map(|(_, shape)| play(&shape(seed))).map(|line| kind_and_code(&line)).collect();
        assert_eq!(reached, reachable(), "seed {seed}");
    }
}

fn shape_named(name: &str) -> LogShape {
    LOG_SHAPES.iter().find(|(known, _)| *known == name).unwrap().1
}

fn kinds_of_shape(name: &str, seed: u64) -> BTreeSet<(&'static str, u32)> {
    play(&shape_named(name)(seed)).iter().map(kind_and_code).collect()
}

#[test]
fn each_shape_reaches_what_it_is_named_for() {
    for seed in 1..=20 {
        for (name, shape) in LOG_SHAPES {
            let log = shape(seed);
            let last = *play(&log).last().unwrap();
            match name {
                "changed" => assert!(matches!(last, Line::End { .. } | Line::Stopped(Stop::Broken { .. }))),
                "broken-large" => assert!(matches!(last, Line::Stopped(Stop::Broken { offset: 65_536.. })), "{seed}"),
                _ if name.starts_with("broken") => {
                    assert!(matches!(last, Line::Stopped(Stop::Broken { .. })), "{name} {seed}")
                }
                _ => assert!(matches!(last, Line::End { .. }), "{name} {seed}"),
            }
            match name {
                "large" => assert!(log.len() >= 90_000, "{seed}"),
                "round" | "broken-round" => {
                    assert!((log.len() - 1..=log.len() + 1).any(usize::is_power_of_two), "{name} {seed}")
                }
                _ => {}
            }
        }
        for (name, code) in [
            ("full", ("in", 9)),
            ("places", ("open", 7)),
            ("held", ("open", 8)),
            ("bad", ("in", 4)),
            ("bad", ("name", 4)),
        ] {
            assert!(kinds_of_shape(name, seed).contains(&code), "{name} {seed}");
        }
        for name in ["churn", "largest64", "largest2048", "powers"] {
            assert!(
                kinds_of_shape(name, seed).is_superset(&BTreeSet::from([
                    ("open", 0),
                    ("open", 5),
                    ("name", 0),
                    ("close", 0)
                ])),
                "{name} {seed}"
            );
        }
    }
}

#[test]
fn the_seeds_of_shares_have_each_share_once_and_two_slots_of_it_an_interval_apart() {
    let mut seen = BTreeSet::new();
    for seed in 1..=SEEDS_OF_SHARES {
        let log = shape_named("shares")(seed.into());
        let (_, reader) = Reader::new(&log, 0).begin().unwrap();
        let opened = reader.filter_map(|field| match field.unwrap() {
            Field::Open { share, .. } => Some(share),
            _ => None,
        });
        let lines = play(&log);
        let clocks: Vec<u64> = lines
            .iter()
            .filter_map(|line| match line {
                Line::Out(sent) => Some(sent.clock),
                _ => None,
            })
            .collect();
        let mut pairs = clocks.chunks(2);
        for share in opened {
            let [first, second] = *pairs.next().unwrap() else { panic!("share {share} has one slot") };
            assert_eq!(second - first, interval(class_of(share).unwrap()), "share {share}");
            assert!(seen.insert(share), "share {share}");
        }
        assert!(pairs.next().is_none(), "seed {seed}");
    }
    assert!(seen.into_iter().eq(1..=WHOLE_LINE));
}

#[test]
fn a_shape_gives_the_same_log_for_the_same_seed_and_others_for_others() {
    for (name, shape) in LOG_SHAPES {
        assert_eq!(shape(7), shape(7), "{name}");
        let differ = (0..20).any(|seed| shape(seed) != shape(7));
        assert_eq!(differ, name != "broken-empty", "{name}");
    }
}

#[test]
fn the_text_of_a_log_comes_back_as_the_same_bytes() {
    let round = |log: &[u8]| log_text::bytes(&log_text::text(log)).unwrap() == log;
    assert!(round(&WORKED_LOG));
    for (name, shape) in LOG_SHAPES {
        for seed in 0..10 {
            assert!(round(&shape(seed)), "{name} {seed}");
        }
    }
    let mut random = Random::new(5);
    for length in 0..600 {
        let bytes = random.bytes(length);
        assert!(round(&bytes), "{bytes:?}");
        let behind_largest = [&[6, 0, 2, 0, 100], &bytes[..]].concat();
        assert!(round(&behind_largest), "{behind_largest:?}");
    }
    assert!(round(&random.bytes(70_000)));
}

#[test]
fn a_log_reads_as_lines() {
    // The third field is cut, so all from there on is one row of bytes.
    assert_eq!(log_text::text(&WORKED_LOG[..20]), "largest 100\nopen 11 32768\nraw 01000800\n");
    assert_eq!(log_text::text(&[5, 0, 0, 255]), "raw 050000ff\n");
    assert_eq!(log_text::text(&[]), "");
    let lines = "largest 64\nother 128\nother 200 0aff\nother 255 zeros 65535\nrename 1 2\nclose 4294967295
record 1 2 3\nserve\nraw 0500\n";
    assert_eq!(log_text::text(&log_text::bytes(lines).unwrap()), lines);
}

#[test]
fn lines_that_are_no_lines_of_a_log_are_refused_by_their_number() {
    for line in [
        "largest",
        "largest 65536",
        "largest +1",
        "largest -1",
        "open 1",
        "open 1 4294967296",
        "record 1 2 65536",
        "serve 1",
        "other 127",
        "other 256",
        "other 128 0",
        "other 127 zeros 1",
        "other 128 zeros",
        "other 128 zeros 65536",
        "other 128 ones 1",
        "raw",
        "raw 0",
        "raw 0g",
        "raw 00 00",
        "close",
        "close x",
        "burst 1 1",
        "close 99999999999999999999999",
    ] {
        let message = log_text::bytes(&format!("# a log\n\nlargest 100\n{line}\n")).unwrap_err();
        assert!(message.starts_with("line 4: "), "{line}: {message}");
    }
    assert_eq!(log_text::bytes("  serve # once\n#serve\n\n").unwrap(), [5, 0, 0]);
}
