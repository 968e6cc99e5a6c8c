//! The case text: its answers, its digest, its byte form and the paper that describes it.

use std::collections::BTreeSet;

use second::case_text::{answers, byte_form};
use second::maker::case_shapes::CASE_SHAPES;

fn shape(name: &str, seed: u64) -> String {
    let (_, shape) = CASE_SHAPES.iter().find(|(known, _)| *known == name).unwrap();
    shape(seed)
}

const MODULUS: u128 = 4_294_967_291;

fn power(base: u128, mut exponent: u64) -> u128 {
    let (mut square, mut result) = (base % MODULUS, 1);
    while exponent > 0 {
        if exponent % 2 == 1 {
            result = result * square % MODULUS;
        }
        square = square * square % MODULUS;
        exponent /= 2;
    }
    result
}

/// A board fresh from `make 64` has three values that are not 0, all under 2^16: L and the lengths of the two tables.
/// So its digest is the sum of the powers of 65,599, one for each part, and three powers more, with a factor each.
#[test]
fn the_digest_of_a_fresh_board_by_hand() {
    let fields_before_largest = 7 * 64 + 3 * 17;
    let fields = fields_before_largest + 6;
    let values = fields + 1 + 2_048 + 1 + 2_048;
    let parts = 4 * values;
    let last_part_of = |value: u64| parts - 1 - (4 * value + 3);
    let inverse = power(65_598, MODULUS as u64 - 2);
    let of_zeros = (power(65_599, parts) + MODULUS - 1) * inverse % MODULUS;
    let digest = of_zeros
        + 64 * power(65_599, last_part_of(fields_before_largest))
        + 2_048 * power(65_599, last_part_of(fields))
        + 2_048 * power(65_599, last_part_of(fields + 1 + 2_048));
    assert_eq!(answers("case fresh\nmake 64\n").unwrap(), format!("case 1\nmake 0 #{}\n", digest % MODULUS));
    assert_eq!(digest % MODULUS, 3_577_192_133);
}

/// The list comes last: its length and its entries.
#[test]
fn the_digest_of_a_burst_goes_on_with_its_list() {
    let text = answers("case fresh\nmake 64\nburst 9 2\n").unwrap();
    let mut digest: u128 = 3_577_192_133;
    for part in [0, 0, 0, 2, 0, 0, 65_535, 65_535, 0, 0, 65_535, 65_535] {
        digest = (digest * 65_599 + part + 1) % MODULUS;
    }
    assert_eq!(text.lines().last().unwrap(), format!("burst 0 0 1 #{digest}"));
}

#[test]
fn every_field_and_entry_is_in_the_digest() {
    let fields = [
        "number 0",
        "number 63",
        "share 5",
        "deficit 5",
        "start 5",
        "count 5",
        "ready 5",
        "next 5",
        "head 0",
        "tail 16",
        "held 3",
        "largest",
        "clock",
        "active",
        "pending",
        "slot",
        "left",
    ];
    let mut digests = BTreeSet::new();
    let mut add = |line: &str| digests.insert(answers(&format!("case x\n{line}\nspoilt\n")).unwrap());
    assert!(add(""));
    for field in fields {
        assert!(add(&format!("{field} 1")), "{field}");
        assert!(add(&format!("{field} 200")), "{field}");
    }
    for line in [
        "entry 0 1 0",
        "entry 0 0 1",
        "entry 2047 1 0",
        "entry 2047 0 1",
        "tables 2047 2048",
        "tables 2048 2047",
        "tables 2047 2047",
    ] {
        assert!(add(line), "{line}");
    }
}

/// The call of an answer line and its code; none for a case line or a shown field.
fn call_and_code(answer: &str) -> Option<(String, u32)> {
    let words: Vec<&str> = answer.split(' ').collect();
    let code = match words[0] {
        "make" | "open" | "rename" | "close" | "record" | "serve" | "spoilt" => words[1],
        "burst" => words[3],
        _ => return None,
    };
    Some((words[0].to_string(), code.parse().unwrap()))
}

fn calls_and_codes(text: &str) -> BTreeSet<(String, u32)> {
    answers(text).unwrap().lines().filter_map(call_and_code).collect()
}

fn reachable() -> BTreeSet<(String, u32)> {
    let calls: [(&str, &[u32]); 8] = [
        ("make", &[0, 3, 4]),
        ("open", &[0, 2, 3, 4, 5, 7, 8]),
        ("rename", &[0, 2, 3, 4, 5, 6]),
        ("close", &[0, 2, 3, 6, 10]),
        ("record", &[0, 2, 3, 4, 6, 9]),
        ("serve", &[0, 1, 2, 3, 11]),
        ("burst", &[1, 2, 3, 11, 13, 14]),
        ("spoilt", &[0, 1, 3]),
    ];
    calls.iter().flat_map(|(call, codes)| codes.iter().map(|&code| (call.to_string(), code))).collect()
}

#[test]
fn the_shape_codes_reaches_every_call_with_every_code() {
    assert_eq!(calls_and_codes(&shape("codes", 1)), reachable());
}

/// The comments of the file written by hand begin with the code that is expected, where they begin with a number.
#[test]
fn the_shape_codes_answers_what_its_comments_expect() {
    let text = shape("codes", 1);
    let is_call = |line: &&str| {
        OPERANDS.iter().any(|(op, word, _)| (20..28).contains(op) && line.split(' ').next() == Some(word))
    };
    let calls: Vec<&str> = text.lines().filter(is_call).collect();
    let codes: Vec<(String, u32)> = answers(&text).unwrap().lines().filter_map(call_and_code).collect();
    assert_eq!(calls.len(), codes.len());
    let mut expected = 0;
    for (call, (_, code)) in calls.iter().zip(codes) {
        let comment = call.split("# ").nth(1).unwrap_or("");
        let digits: String = comment.chars().take_while(char::is_ascii_digit).collect();
        if !digits.is_empty() {
            assert_eq!(digits, code.to_string(), "{call}");
            expected += 1;
        }
    }
    assert!(expected > 50, "{expected} codes are expected");
}

#[test]
fn the_random_shapes_reach_what_they_are_named_for() {
    let with_codes = |call: &str, codes: &[u32]| -> BTreeSet<(String, u32)> {
        codes.iter().map(|&code| (call.to_string(), code)).collect()
    };
    for seed in 1..=3 {
        let run = calls_and_codes(&shape("run", seed));
        let wanted: [(&str, &[u32]); 6] = [
            ("open", &[0, 4, 5, 7, 8]),
            ("rename", &[0, 4, 5, 6]),
            ("close", &[0, 6, 10]),
            ("record", &[0, 4, 6, 9]),
            ("serve", &[0, 1]),
            ("burst", &[1, 13, 14]),
        ];
        for (call, codes) in wanted {
            assert!(run.is_superset(&with_codes(call, codes)), "seed {seed}, {call}");
        }
        assert!(calls_and_codes(&shape("late", seed)).is_superset(&with_codes("serve", &[0, 11])), "seed {seed}");
        assert!(calls_and_codes(&shape("changed", seed)).is_superset(&with_codes("spoilt", &[0, 1])), "seed {seed}");
        assert!(shape("run", seed).lines().count() > 3_000);
    }
}

/// Every send is under the number of that moment, every record is sent once and in order, and the old numbers are
/// unknown.
#[test]
fn the_renaming_story_sends_every_record_under_the_name_of_the_moment() {
    for seed in 1..=10 {
        let text = shape("renames", seed);
        let answers = answers(&text).unwrap();
        let (mut first_name, mut second_name) = (11, 12);
        let mut sent = Vec::new();
        for (line, answer) in text.lines().zip(answers.lines()) {
            let words: Vec<&str> = line.split(' ').collect();
            let answer: Vec<&str> = answer.split(' ').collect();
            match (words[0], answer[1]) {
                ("rename", "0") if words[1] == first_name.to_string() => first_name = words[2].parse().unwrap(),
                ("rename", "0") => second_name = words[2].parse().unwrap(),
                ("serve", "0") => {
                    let record: u32 = answer[3].parse().unwrap();
                    let name = if record <= 11 || record == 201 { first_name } else { second_name };
                    assert_eq!(answer[2], name.to_string(), "seed {seed}, record {record}");
                    sent.push(record);
                }
                _ => {}
            }
        }
        let of_first: Vec<u32> = sent.iter().copied().filter(|&record| record <= 11 || record == 201).collect();
        let of_second: Vec<u32> = sent.iter().copied().filter(|&record| record > 11 && record != 201).collect();
        assert_eq!(of_first, (1..=11).chain([201]).collect::<Vec<u32>>());
        assert_eq!(of_second, (101..=111).collect::<Vec<u32>>());
        assert_eq!((first_name, second_name), (51, 11));
        assert!(answers.contains("\nrecord 6 "), "the old number is unknown");
    }
}

#[test]
fn what_show_writes_can_be_read_again() {
    let board = "make 100\nopen 11 32768\nopen 12 49\nrecord 11 1 60\nrecord 12 2 50\nrecord 11 3 30\nserve\n\
         tables 2049 7\nentry 2048 5 5\n";
    let shown = answers(&format!("case a\n{board}show\n")).unwrap();
    let raw_lines: Vec<&str> = shown.lines().skip_while(|line| !line.starts_with("number")).collect();
    assert!(raw_lines.len() > 12, "{shown}");
    let again = answers(&format!("case a\n{}\n", raw_lines.join("\n"))).unwrap();
    assert_eq!(again.lines().skip(1).collect::<Vec<&str>>(), raw_lines);
}

#[test]
fn a_case_begins_with_zeros_and_two_full_tables() {
    let text = answers("case a\nmake 100\nopen 1 1\nrecord 1 1 1\ntables 0 9\ncase b\nshow\n").unwrap();
    let lines: Vec<&str> = text.lines().collect();
    assert_eq!(lines[4..6], ["case 2", "tables 2048 2048"]);
    assert_eq!(lines.len(), 7);
}

#[test]
fn order_and_sets_stand_for_raw_lines() {
    let base = "case a\nlargest 100\nclock 8\n";
    let blocks = "number 1 5\nshare 1 16384\ncount 1 1\nready 1 8\nentry 32 1 1\n\
         number 4 6\nshare 4 16384\ncount 4 1\nready 4 12\nentry 128 1 1\n";
    let short = answers(&format!("{base}{blocks}order 2 1 4\nsets\nspoilt\nshow\n")).unwrap();
    let raw =
        answers(&format!("{base}{blocks}head 2 2\ntail 2 5\nnext 1 5\nnext 4 0\nactive 4\npending 4\nspoilt\nshow\n"))
            .unwrap();
    assert_eq!(short, raw);
    assert!(short.contains("\nspoilt 0 #"), "{short}");
    assert_eq!(
        byte_form("case a\norder 2 1 4\nsets\n").unwrap(),
        byte_form("case a\nhead 2 2\ntail 2 5\nnext 1 5\nnext 4 0\nactive 0\npending 4\n").unwrap()
    );
}

/// The words and numbers of operands, written out a second time.
const OPERANDS: [(u8, &str, usize); 28] = [
    (1, "case", 1),
    (2, "tables", 2),
    (3, "largest", 1),
    (4, "clock", 1),
    (5, "active", 1),
    (6, "pending", 1),
    (7, "slot", 1),
    (8, "left", 1),
    (9, "number", 2),
    (10, "share", 2),
    (11, "deficit", 2),
    (12, "start", 2),
    (13, "count", 2),
    (14, "ready", 2),
    (15, "next", 2),
    (16, "head", 2),
    (17, "tail", 2),
    (18, "held", 2),
    (19, "entry", 3),
    (20, "make", 1),
    (21, "open", 2),
    (22, "rename", 2),
    (23, "close", 1),
    (24, "record", 3),
    (25, "serve", 0),
    (26, "burst", 2),
    (27, "spoilt", 0),
    (28, "show", 0),
];

/// Reads the byte form as a driving program would.
fn text_of_bytes(mut bytes: &[u8]) -> String {
    let mut text = String::new();
    while let Some((op, rest)) = bytes.split_first() {
        let (_, word, operands) = OPERANDS.iter().find(|(number, _, _)| number == op).unwrap();
        text += word;
        bytes = rest;
        for _ in 0..*operands {
            let (operand, rest) = bytes.split_at(8);
            text += &format!(" {}", u64::from_be_bytes(operand.try_into().unwrap()));
            bytes = rest;
        }
        text += "\n";
    }
    text
}

#[test]
fn the_byte_form_says_the_same_as_the_text() {
    for (name, shape) in CASE_SHAPES {
        let text = shape(2);
        let from_bytes = text_of_bytes(&byte_form(&text).unwrap());
        assert_eq!(answers(&from_bytes).unwrap(), answers(&text).unwrap(), "{name}");
    }
    assert_eq!(byte_form("case seventeen\nentry 2047 258 3\nserve\n").unwrap(), {
        let mut bytes = vec![1, 0, 0, 0, 0, 0, 0, 0, 1, 19];
        bytes.extend([0, 0, 0, 0, 0, 0, 7, 255, 0, 0, 0, 0, 0, 0, 1, 2, 0, 0, 0, 0, 0, 0, 0, 3, 25]);
        bytes
    });
}

#[test]
fn a_file_that_cannot_be_read_is_refused_by_its_line() {
    for line in [
        "case",
        "case a b",
        "tables 1",
        "tables 65536 1",
        "largest",
        "largest 4294967296",
        "clock 18446744073709551616",
        "clock -1",
        "clock +1",
        "clock 1 1",
        "slot 256",
        "number 64 1",
        "number 0 4294967296",
        "share 0",
        "start 0 65536",
        "count 0 65536",
        "head 17 1",
        "head 0 256",
        "held 0 4294967296",
        "entry 0 1",
        "entry 65536 1 1",
        "entry 0 1 65536",
        "order",
        "order 17",
        "order 0 64",
        "order x",
        "make",
        "open 1",
        "open 4294967296 1",
        "record 1 2 65536",
        "burst 1 65536",
        "burst 18446744073709551616 1",
        "serve 1",
        "spoilt 1",
        "show me",
        "bogus",
        "sets 1",
        "close 0x1",
    ] {
        let message = answers(&format!("case a # the first\n\n{line}\n")).unwrap_err();
        assert!(message.starts_with("line 3: "), "{line}: {message}");
        assert_eq!(byte_form(&format!("case a\n\n{line}\n")).unwrap_err(), message);
    }
    assert!(answers("make 64\n").unwrap_err().starts_with("line 1: "), "no case has begun");
    assert!(answers("case a\nhead 0 65\nsets\n").is_err(), "links that spell no orders have no sets");
    assert_eq!(answers("# nothing\n\n").unwrap(), "");
}

/// The paper's blocks marked `cases` and `answers` follow each other, and the answers are right.
#[test]
fn the_examples_of_the_paper_are_right() {
    let paper = include_str!("../../docs/CASES.md");
    let blocks = |mark: &str| -> Vec<String> {
        let opening = format!("```{mark}\n");
        paper.split(&opening).skip(1).map(|rest| rest.split("```").next().unwrap().to_string()).collect()
    };
    let (texts, expected) = (blocks("cases"), blocks("answers"));
    assert!(texts.len() >= 3 && texts.len() == expected.len());
    for (text, expected) in texts.iter().zip(expected) {
        assert_eq!(answers(text).unwrap(), expected, "{text}");
    }
    for (op, word, _) in OPERANDS {
        assert!(paper.contains(&format!("| {op} | `{word}` |")), "{word} is missing in the table");
    }
}
