//! Logs in fragments and at any offset: `long`, `broken`, and the files of feed cases.

use second::feed_case::{answers, FeedCase, FeedCases, Kind, MOST_AT_ONCE};
use second::listing::{self, Line};
use second::log::{Stop, LOG_END};
use second::log_text;
use second::maker::cuts::{cuts, file_of, stories};
use second::maker::feed_shapes::FEED_SHAPES;
use second::maker::log_shapes::LOG_SHAPES;
use second::maker::random::Random;
use second::maker::season::season;
use second::play::{play, play_at};
use second::report::{report, report_at};

/// L, an open, a value that is passed over and a serve: bytes 0, 5, 16 and 24 begin a field, and 27 is the end.
const LOG: &str = "largest 100\nopen 7 1\nother 200 0001020304\nserve\n";

fn log() -> Vec<u8> {
    log_text::bytes(LOG).unwrap()
}

/// The listing of a log of which so many bytes stand before 2^48.
fn with_before_the_end(before: u64, log: &[u8]) -> String {
    listing::text(&play_at(log, LOG_END - before))
}

fn broken(before: u64, field: u64) -> String {
    format!("broken {}\n", LOG_END - before + field)
}

#[test]
fn a_log_of_exactly_2_to_the_48_bytes_ends_and_one_byte_more_is_long() {
    assert_eq!(LOG_END, 281_474_976_710_656);
    assert_eq!(with_before_the_end(27, &log()), "open 7 0\nout - 1\nend 0 0 0\n");
    assert_eq!(with_before_the_end(28, &log()), "open 7 0\nout - 1\nend 0 0 0\n");
    for after in [0, 5, 6, 7, 200, 255] {
        let longer = [&log()[..], &[after]].concat();
        assert_eq!(with_before_the_end(27, &longer), "open 7 0\nout - 1\nlong\n", "the byte is not looked at");
    }
}

#[test]
fn a_byte_at_2_to_the_48_is_long_behind_the_lines_of_the_whole_fields_before() {
    for before in 0..27 {
        let lines = match before {
            0..16 => "long\n",
            16..27 => "open 7 0\nlong\n",
            _ => unreachable!(),
        };
        assert_eq!(with_before_the_end(before, &log()), lines, "{before}");
        let report = report_at(&log(), LOG_END - before);
        assert_eq!(report, "long\n", "{before}");
    }
    assert_eq!(report_at(&log(), LOG_END - 27), "7 0 0 0 0 0\n");
}

#[test]
fn a_cut_field_is_broken_only_if_the_log_ends_before_2_to_the_48() {
    for cut in 17..24 {
        let log = &log()[..cut];
        for before in cut as u64..30 {
            assert_eq!(with_before_the_end(before, log), format!("open 7 0\n{}", broken(before, 16)), "{cut} {before}");
        }
        assert_eq!(with_before_the_end(cut as u64 - 1, log), "open 7 0\nlong\n", "{cut}");
    }
}

/// A field that begins at byte 5 behind L, and how many of its bytes tell that it is wrong.
#[test]
fn a_wrong_field_is_broken_as_soon_as_the_byte_that_tells_it_is_there() {
    for (raw, telling) in [
        ("00", 1),
        ("07000100", 1),
        ("7f0000", 1),
        ("0600020064", 1),
        ("01000700000000000000", 3),
        ("01010800000000000000", 3),
        ("02000500000000", 3),
        ("03000000000000000000", 3),
        ("04ffff00000000000000", 3),
        ("05000100", 3),
    ] {
        let log = log_text::bytes(&format!("largest 100\nraw {raw}\n")).unwrap();
        for before in 5..log.len() as u64 + 2 {
            let wanted = if before < 5 + telling { "long\n".to_string() } else { broken(before, 5) };
            assert_eq!(with_before_the_end(before, &log), wanted, "{raw} {before}");
            assert_eq!(report_at(&log, LOG_END - before), wanted, "{raw} {before}");
        }
        for shown in 5 + telling as usize..=log.len() {
            assert_eq!(listing::text(&play(&log[..shown])), "broken 5\n", "{raw}: its value may be missing");
        }
    }
}

#[test]
fn a_wrong_first_field_is_told_by_its_tag_its_length_or_all_of_l() {
    for (raw, telling) in [
        ("0500000000", 1),
        ("8000000000", 1),
        ("0000020064", 1),
        ("0600010064", 3),
        ("0601020064", 3),
        ("060002003f", 5),
        ("0600020000", 5),
        ("0600020801", 5),
        ("060002ffff", 5),
    ] {
        let log = log_text::bytes(&format!("raw {raw}\n")).unwrap();
        for before in 0..8 {
            let wanted = if before < telling { "long\n".to_string() } else { broken(before, 0) };
            assert_eq!(with_before_the_end(before, &log), wanted, "{raw} {before}");
        }
    }
}

#[test]
fn an_empty_log_is_broken_at_its_offset_and_any_byte_at_2_to_the_48_or_later_is_long() {
    for first in [0, 1, 1 << 32, LOG_END - 1, LOG_END] {
        assert_eq!(listing::text(&play_at(&[], first)), format!("broken {first}\n"));
        assert_eq!(report_at(&[], first), format!("broken {first}\n"));
    }
    for first in [LOG_END, LOG_END + 1, u64::MAX] {
        assert_eq!(listing::text(&play_at(&[6], first)), "long\n");
        assert_eq!(report_at(&[0], first), "long\n");
    }
}

#[test]
fn an_offset_is_counted_from_the_first_byte_of_the_whole_log_in_more_than_32_bits() {
    let log = log_text::bytes(&format!("{LOG}raw 00\n")).unwrap();
    for first in [0, (1 << 16) - 27, (1 << 32) - 28, (1 << 32) - 27, 1 << 32, 1 << 40] {
        let wanted = format!("open 7 0\nout - 1\nbroken {}\n", first + 27);
        assert_eq!(listing::text(&play_at(&log, first)), wanted);
    }
}

/// What stops the reading of a log, found by looking at one byte after the other and holding one unfinished field.
fn stop_byte_by_byte(log: &[u8], first: u64) -> Option<Stop> {
    let mut field = Vec::new();
    let mut begin = first;
    let mut has_largest = false;
    for (offset, &byte) in (first..).zip(log) {
        if offset >= LOG_END {
            return Some(Stop::Long);
        }
        field.push(byte);
        let is_wrong = match field[..] {
            [tag] => has_largest == (tag == 6) || matches!(tag, 0 | 7..=127),
            [tag @ ..=127, high, low] => [high, low] != [0, [8, 4, 8, 10, 0, 2][usize::from(tag) - 1]],
            [6, _, _, high, low] => !(64..=2_048).contains(&u16::from_be_bytes([high, low])),
            _ => false,
        };
        if is_wrong {
            return Some(Stop::Broken { offset: begin });
        }
        if matches!(field[..], [_, high, low, ..] if field.len() == 3 + usize::from(u16::from_be_bytes([high, low]))) {
            field.clear();
            begin = offset + 1;
            has_largest = true;
        }
    }
    (!has_largest || !field.is_empty()).then_some(Stop::Broken { offset: begin })
}

#[test]
fn a_log_stops_as_it_does_byte_by_byte() {
    let mut random = Random::new(21);
    let (mut long, mut broken, mut whole) = (0, 0, 0);
    let mut compare = |log: &[u8], first: u64| {
        let told = stop_byte_by_byte(log, first);
        let last = *play_at(log, first).last().unwrap();
        match told {
            Some(stop) => assert_eq!(last, Line::Stopped(stop), "{first}: {log:?}"),
            None => assert!(matches!(last, Line::End { .. }), "{first}: {log:?}"),
        }
        match told {
            Some(Stop::Long) => long += 1,
            Some(Stop::Broken { .. }) => broken += 1,
            None => whole += 1,
        }
    };
    for (_, shape) in LOG_SHAPES {
        for seed in 1..=4 {
            let log = shape(seed);
            let before = random.between(0, log.len() as u64 + 3);
            for first in [0, (1 << 32) - before, LOG_END - before] {
                compare(&log, first);
            }
        }
    }
    for case in FEED_SHAPES.iter().flat_map(|(_, shape)| FeedCases::of(&shape(1)).collect::<Vec<_>>()) {
        let case = case.unwrap();
        compare(&case.joined(), case.first);
    }
    assert!(long > 500 && broken > 500 && whole > 100, "{long} long, {broken} broken, {whole} whole");
}

#[test]
fn a_feed_case_is_answered_as_its_joined_log_however_it_is_cut() {
    for (name, shape) in LOG_SHAPES {
        for seed in 1..=3 {
            let log = shape(seed);
            for (kind, said) in [(Kind::Listing, listing::text(&play(&log))), (Kind::Report, report(&log))] {
                for case in FeedCases::of(&cuts(kind, seed, &log)) {
                    let case = case.unwrap();
                    assert!(case.joined() == log, "{name} {seed}");
                    assert_eq!(case.answer(), format!("{said}--\n"), "{name} {seed}");
                }
            }
        }
    }
}

#[test]
fn the_bytes_of_a_feed_case_file() {
    let listed = FeedCase {
        kind: Kind::Listing,
        first: 0x0102_0304_0506,
        room: 64,
        fragments: vec![vec![6, 0], vec![], vec![2, 0, 100]],
    };
    let reported = FeedCase { kind: Kind::Report, first: LOG_END, room: 4_096, fragments: vec![] };
    let file = file_of(&[listed.clone(), reported.clone()]);
    let mut bytes = vec![0, 0, 0, 1, 2, 3, 4, 5, 6, 0, 64, 0, 2, 6, 0, 0, 0, 0, 3, 2, 0, 100, 255, 255];
    bytes.extend([1, 0, 1, 0, 0, 0, 0, 0, 0, 16, 0, 255, 255]);
    assert_eq!(file, bytes);
    assert_eq!(FeedCases::of(&file).collect::<Vec<_>>(), [Ok(listed), Ok(reported)]);
    assert_eq!(answers(&file), ("end 0 0 0\n--\nbroken 281474976710656\n--\n".to_string(), Ok(())));
    assert_eq!(answers(&[]), (String::new(), Ok(())));
}

#[test]
fn a_file_that_is_not_whole_is_answered_up_to_the_case_that_is_cut_or_has_other_values() {
    let case = |kind, room| FeedCase { kind, first: 0, room, fragments: vec![log()] };
    let whole = file_of(&[case(Kind::Listing, 64)]);
    let (said, _) = answers(&whole);
    for end in 1..whole.len() {
        let (text, message) = answers(&[&whole[..], &whole[..end]].concat());
        assert_eq!((text, message), (said.clone(), Err("case 2: the file is cut".to_string())), "{end}");
    }
    let with = |at: usize, byte: u8| {
        let mut file = whole.clone();
        file[at] = byte;
        answers(&file)
    };
    for (at, byte) in [(0, 2), (10, 63), (9, 17), (11, 17)] {
        let (text, message) = with(at, byte);
        assert!(text.is_empty() && message.unwrap_err().starts_with("case 1: "), "{at}");
    }
    for (kind, room, whole) in [
        (Kind::Listing, 63, false),
        (Kind::Listing, 64, true),
        (Kind::Listing, 4_096, true),
        (Kind::Listing, 4_097, false),
        (Kind::Report, 127, false),
        (Kind::Report, 128, true),
    ] {
        assert_eq!(answers(&file_of(&[case(kind, room)])).1.is_ok(), whole, "{kind:?} {room}");
    }
}

/// The page shows a file in hex, and behind it what is made of its cases.
#[test]
fn the_example_of_the_page_is_right() {
    let page = include_str!("../../docs/CASES.md");
    let fenced = |mark: &str| page.split_once(&format!("```{mark}\n")).unwrap().1.split_once("```").unwrap().0;
    let hex: String = fenced("feed").split_whitespace().collect();
    let file = log_text::bytes(&format!("raw {hex}\n")).unwrap();
    assert_eq!(answers(&file), (fenced("fed").to_string(), Ok(())));
}

#[test]
fn cuts_have_what_is_asked_of_them() {
    let told = |log: &[u8]| -> Vec<_> {
        FeedCases::of(&cuts(Kind::Report, 1, log)).map(|case| stories(&case.unwrap())).collect()
    };
    let short = told(&log());
    assert_eq!(short.len(), 3 + 1 + 28);
    for story in ["between-fields", "in-head", "in-value", "in-passed-over", "byte-by-byte", "empty-fragment"] {
        assert!(short.iter().any(|told| told.contains(story)), "{story}");
    }
    let middle = told(&[&log()[..], &[5, 0, 0].repeat(600)].concat());
    assert_eq!(middle.len(), 3 + 1);
    let large = told(&log_text::bytes(&format!("largest 100\nother 255 {}\n", "00".repeat(65_535))).unwrap());
    assert_eq!(large.len(), 3);
    for story in ["in-passed-over", "empty-fragment", "largest-fragment", "least-room", "most-room"] {
        assert!(large.iter().any(|told| told.contains(story)), "{story}");
    }
    assert_eq!(told(&[]).len(), 3 + 1 + 1);
}

#[test]
fn far_logs_end_in_every_way() {
    for (name, shape) in FEED_SHAPES {
        let mut ends = Vec::new();
        for seed in 1..=4 {
            let cases: Result<Vec<FeedCase>, String> = FeedCases::of(&shape(seed)).collect();
            for case in cases.unwrap() {
                assert!(case.first <= LOG_END && case.fragments.iter().all(|part| part.len() <= MOST_AT_ONCE));
                let answer = case.answer();
                ends.push(answer.lines().rev().nth(1).unwrap_or("").split(' ').next().unwrap().to_string());
            }
        }
        let count = |wanted: &str| ends.iter().filter(|end| *end == wanted).count();
        match name {
            "far" => assert!(count("long") > 500 && count("broken") > 500 && count("end") > 4, "{name}"),
            "far-32" => assert!(count("long") == 0 && count("broken") > 100 && count("end") > 2, "{name}"),
            _ => assert!(count("long") > 10 && count("end") >= 1, "{name}"),
        }
    }
}

#[test]
fn a_season_has_at_least_its_bytes_and_ends_whole() {
    for (seed, bytes) in [(1, 0), (1, 5), (1, 6), (2, 100_000), (3, 1_000_000)] {
        let mut log = Vec::new();
        season(seed, bytes, &mut log).unwrap();
        assert!((bytes..bytes + 100_000).contains(&(log.len() as u64)), "{bytes}: {}", log.len());
        assert!(listing::text(&play(&log)).lines().last().unwrap().starts_with("end "), "{bytes}");
    }
}
