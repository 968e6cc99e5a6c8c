//! No input makes the programs panic, and every listing ends as it must.

use second::calls::Lent;
use second::case_text::{answers, Cases};
use second::codes::Refusal;
use second::engine::Record;
use second::listing::Line;
use second::log::{Stop, LOG_END};
use second::log_text;
use second::maker::case_shapes::CASE_SHAPES;
use second::maker::log_shapes::LOG_SHAPES;
use second::maker::random::Random;
use second::numbers::Bytes;
use second::play::{play, play_at};
use second::words::word_lines;

fn ends_as_it_must(log: &[u8]) {
    let lines = play(log);
    let (last, before) = lines.split_last().expect("a listing has a line");
    assert!(before.iter().all(|line| !matches!(line, Line::End { .. } | Line::Stopped(_))));
    match last {
        Line::Stopped(Stop::Broken { offset }) => assert!(*offset < log.len().max(1) as u64),
        Line::End { .. } => {}
        _ => panic!("{last} is not a last line of a log in memory"),
    }
    goes_past_as_it_must(log, before);
}

/// The same log with any of its bytes at 2^48 is long there, with lines that it has anyway, or as before.
fn goes_past_as_it_must(log: &[u8], lines: &[Line]) {
    let past = log.len() / 2;
    let far = play_at(log, LOG_END - past as u64);
    let (last, before) = far.split_last().expect("a listing has a line");
    assert!(lines.starts_with(before));
    match last {
        Line::Stopped(Stop::Broken { offset }) => {
            assert!(*offset < LOG_END || log.is_empty());
            assert_eq!(before, lines, "it is broken before");
        }
        Line::Stopped(Stop::Long) => assert!(!log.is_empty()),
        _ => panic!("{last} is not a last line of such a log"),
    }
}

#[test]
fn a_thousand_valid_logs_with_bytes_changed_after_l() {
    let (_, changed) = LOG_SHAPES.iter().find(|(name, _)| *name == "changed").unwrap();
    let mut broken = 0;
    for seed in 0..1_000 {
        let log = changed(seed);
        ends_as_it_must(&log);
        broken += usize::from(matches!(play(&log).last(), Some(Line::Stopped(_))));
    }
    assert!((100..1_000).contains(&broken), "{broken} of the logs are broken");
}

/// Random bytes of every length up to 64 KB, alone and behind an L, where they are read further. Every length is a part
/// of drawn bytes from a place of its own, so that no two begin alike.
#[test]
fn random_bytes_of_every_length() {
    const MOST: usize = 65_536;
    let mut random = Random::new(11);
    let drawn = random.bytes(2 * MOST);
    for length in 0..=MOST {
        let bytes = &drawn[length..2 * length];
        ends_as_it_must(bytes);
        let mut behind = vec![6, 0, 2, 0, 200];
        behind.extend(bytes);
        ends_as_it_must(&behind);
    }
}

/// Whole fields with random values: every tag is read to its end.
#[test]
fn random_fields_with_random_values() {
    let mut random = Random::new(12);
    for _ in 0..500 {
        let mut log = vec![6, 0, 2, 0, 200];
        for _ in 0..200 {
            let (tag, length) = random.pick(&[(1, 8), (2, 4), (3, 8), (4, 10), (5, 0), (200, 3)]);
            let small = random.percent(80);
            log.extend([tag, 0, length as u8]);
            let value = random.bytes(length);
            // Small numbers meet each other; any bytes are mostly out of range.
            log.extend(value.iter().enumerate().map(|(at, &byte)| if small && at % 4 != 3 { 0 } else { byte % 40 }));
        }
        ends_as_it_must(&log);
    }
}

#[test]
fn case_files_with_characters_changed() {
    let mut random = Random::new(13);
    let (_, codes) = CASE_SHAPES.iter().find(|(name, _)| *name == "codes").unwrap();
    let lines: Vec<String> = codes(1).lines().map(str::to_string).collect();
    let (mut read, mut refused) = (0, 0);
    for _ in 0..1_500 {
        let at = random.between(0, lines.len() as u64 - 20) as usize;
        let mut text = format!("case a\nmake 100\n{}\n", lines[at..at + 20].join("\n")).into_bytes();
        for _ in 0..random.between(0, 3) {
            let at = random.between(0, text.len() as u64 - 1) as usize;
            text[at] = random.pick(b"0123456789 \n#abcsetxo-+");
        }
        match answers(&String::from_utf8(text).unwrap()) {
            Ok(_) => read += 1,
            Err(_) => refused += 1,
        }
    }
    assert!(read > 100 && refused > 100, "{read} read, {refused} refused");
    for length in 0..300 {
        let bytes = random.bytes(length);
        let text = String::from_utf8_lossy(&bytes);
        assert!(answers(&text).is_err() || word_lines(&text).next().is_none());
        drop(log_text::bytes(&text));
    }
}

/// Boards of runs with some fields set to anything: each call ends, and a refused one leaves everything.
#[test]
fn calls_on_boards_with_any_numbers() {
    let mut random = Random::new(14);
    let fields = [
        ("number", 64, u32::MAX as u64),
        ("share", 64, u32::MAX as u64),
        ("deficit", 64, u64::MAX),
        ("start", 64, 255),
        ("count", 64, 255),
        ("ready", 64, u64::MAX),
        ("next", 64, 255),
        ("head", 17, 255),
        ("tail", 17, 255),
        ("held", 17, u32::MAX as u64),
        ("largest", 0, u32::MAX as u64),
        ("clock", 0, u64::MAX),
        ("slot", 0, 255),
        ("left", 0, u64::MAX),
    ];
    let (mut spoilt, mut sound) = (0, 0);
    for _ in 0..3_000 {
        let mut text = "case a\nmake 100\nopen 11 32768\nopen 12 8192\nopen 13 8192\nrecord 11 1 90\n\
             record 12 2 9\nrecord 13 3 9\nserve\n"
            .to_string();
        for _ in 0..random.between(1, 4) {
            let (word, indexes, most) = random.pick(&fields);
            let index = if indexes == 0 { String::new() } else { random.between(0, 5).to_string() };
            let any = random.between(0, most);
            let value = random.pick(&[0, 1, 2, 3, 64, most, any, 8_192.min(most)]);
            text += &format!("{word} {index} {value}\n");
        }
        let mut cases = Cases::new();
        cases.play(&text, |_, _| ()).unwrap();
        match cases.lent.check() {
            Ok(()) => sound += 1,
            Err(_) => spoilt += 1,
        }
        try_all_calls(&cases.lent);
    }
    assert!(spoilt > 500 && sound > 100, "{spoilt} spoilt, {sound} sound");
}

fn try_all_calls(lent: &Lent) {
    let is_spoilt = lent.check() == Err(Refusal::Spoilt);
    let held_to = |answer: Result<(), Refusal>, after: &Lent| {
        assert_eq!(is_spoilt, answer == Err(Refusal::Spoilt));
        assert!(answer.is_ok() || after == lent, "a refusal changed something");
    };
    let mut after = lent.clone();
    held_to(after.open(20, 1), &after);
    let mut after = lent.clone();
    held_to(after.rename(12, 20), &after);
    let mut after = lent.clone();
    held_to(after.close(12), &after);
    let mut after = lent.clone();
    held_to(after.record(12, Record { number: 1, length: 50 }), &after);
    let mut after = lent.clone();
    held_to(after.serve().map(|_| ()), &after);
    let mut after = lent.clone();
    let burst = after.burst(Bytes(500), &mut [0; 9]);
    assert_eq!(is_spoilt, burst.stopped_by == Refusal::Spoilt);
    assert!(burst.count > 0 || after == *lent, "a burst without a send changed something");
}
