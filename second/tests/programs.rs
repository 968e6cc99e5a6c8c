//! The six programs, run as they are.

use std::fs;
use std::io::Write;
use std::path::Path;
use std::process::{Command, Output, Stdio};

const SECOND: &str = env!("CARGO_BIN_EXE_second");
const CASES: &str = env!("CARGO_BIN_EXE_cases");
const FEED_CASE: &str = env!("CARGO_BIN_EXE_feed_case");
const MAKER: &str = env!("CARGO_BIN_EXE_maker");
const REPORT: &str = env!("CARGO_BIN_EXE_report");
const REPORT_CASE: &str = env!("CARGO_BIN_EXE_report_case");

fn run(program: &str, arguments: &[&str], input: &[u8]) -> Output {
    let mut child = Command::new(program)
        .args(arguments)
        .stdin(Stdio::piped())
        .stdout(Stdio::piped())
        .stderr(Stdio::piped())
        .spawn()
        .unwrap();
    let mut stdin = child.stdin.take().unwrap();
    let input = input.to_vec();
    let writer = std::thread::spawn(move || {
        // A program that takes no input may end before it is written.
        let _ = stdin.write_all(&input);
    });
    let output = child.wait_with_output().unwrap();
    writer.join().unwrap();
    output
}

fn output_of(program: &str, arguments: &[&str], input: &[u8]) -> Vec<u8> {
    let output = run(program, arguments, input);
    assert!(output.status.success(), "{program} {arguments:?}: {}", String::from_utf8_lossy(&output.stderr));
    output.stdout
}

#[test]
fn a_log_written_by_hand_is_made_and_played() {
    let text = b"largest 100\nopen 11 32768\nrecord 11 1 100\nserve\nserve\n";
    let log = output_of(MAKER, &["bytes"], text);
    assert_eq!(output_of(MAKER, &["text"], &log), text);
    assert_eq!(output_of(SECOND, &[], &log), b"open 11 0\nin 1 0\nout 11 1 100 2\nout - 1\nend 3 100 0\n");
    assert_eq!(output_of(REPORT, &[], &log), b"11 1 6553600 100 0 0\n");
    for program in [SECOND, REPORT] {
        assert_eq!(output_of(program, &[], b""), b"broken 0\n");
        assert_eq!(output_of(program, &[], &[0; 100_000]), b"broken 0\n");
    }
}

#[test]
fn a_folder_of_logs_is_made_and_played_as_one_log_is() {
    let folder = Path::new(env!("CARGO_TARGET_TMPDIR")).join("logs");
    fs::create_dir_all(&folder).unwrap();
    output_of(MAKER, &["logs", "tiny", "3", folder.to_str().unwrap()], b"");
    output_of(SECOND, &[folder.to_str().unwrap()], b"");
    output_of(REPORT, &[folder.to_str().unwrap()], b"");
    for seed in ["1", "2", "3"] {
        let log = output_of(MAKER, &["log", "tiny", seed], b"");
        assert_eq!(fs::read(folder.join(format!("tiny-{seed}.log"))).unwrap(), log);
        assert_eq!(fs::read(folder.join(format!("tiny-{seed}.listing"))).unwrap(), output_of(SECOND, &[], &log));
        assert_eq!(fs::read(folder.join(format!("tiny-{seed}.report"))).unwrap(), output_of(REPORT, &[], &log));
    }
    assert_eq!(fs::read_dir(&folder).unwrap().count(), 9);
    fs::remove_dir_all(&folder).unwrap();
}

#[test]
fn a_folder_of_logs_is_cut_and_answered_as_one_log_is() {
    let folder = Path::new(env!("CARGO_TARGET_TMPDIR")).join("cuts");
    fs::create_dir_all(&folder).unwrap();
    output_of(MAKER, &["logs", "tiny", "2", folder.to_str().unwrap()], b"");
    for kind in ["listing", "report"] {
        output_of(MAKER, &["cuts", kind, "5", folder.to_str().unwrap()], b"");
        output_of(FEED_CASE, &[folder.to_str().unwrap()], b"");
        for name in ["tiny-1", "tiny-2"] {
            let file = |ending: &str| fs::read(folder.join(format!("{name}.{ending}"))).unwrap();
            assert_eq!(file("cuts"), output_of(MAKER, &["cuts", kind, "5"], &file("log")));
            assert_eq!(file("answers"), output_of(FEED_CASE, &[], &file("cuts")));
        }
    }
    let told = String::from_utf8(output_of(MAKER, &["feed_stories", folder.to_str().unwrap()], b"")).unwrap();
    assert!(told.lines().any(|row| row == "tiny-1 byte-by-byte"), "{told}");
    fs::remove_dir_all(&folder).unwrap();
}

#[test]
fn a_feed_case_file_that_is_cut_is_answered_as_far_as_it_is_whole() {
    let file = output_of(MAKER, &["cuts", "listing", "1"], b"");
    let output = run(FEED_CASE, &[], &file[..file.len() - 1]);
    assert!(!output.status.success() && !output.stderr.is_empty());
    assert_eq!(output.stdout, b"broken 0\n--\n".repeat(4));
}

#[test]
fn a_season_is_written_as_it_is_made() {
    let log = output_of(MAKER, &["season", "1", "300000"], b"");
    assert!(log.len() >= 300_000);
    assert!(output_of(SECOND, &[], &log).windows(5).any(|line| line == b"\nend "));
}

#[test]
fn the_stories_of_a_folder_are_told_by_name() {
    let folder = Path::new(env!("CARGO_TARGET_TMPDIR")).join("stories");
    fs::create_dir_all(&folder).unwrap();
    output_of(MAKER, &["logs", "emptied", "2", folder.to_str().unwrap()], b"");
    output_of(MAKER, &["logs", "cut", "1", folder.to_str().unwrap()], b"");
    let told = output_of(MAKER, &["stories", folder.to_str().unwrap()], b"");
    assert_eq!(told, b"cut-1 broken\nemptied-1 empty\nemptied-2 empty\n");
    fs::remove_dir_all(&folder).unwrap();
}

#[test]
fn a_report_case_is_reported_and_written_as_bytes() {
    let text = b"counts 0 0 1 0 1\nlargest 64\nopen 7 1\n";
    assert_eq!(output_of(REPORT_CASE, &[], text), b"7 0 1 0 -1 1\n");
    let bytes = output_of(REPORT_CASE, &["bytes"], text);
    assert_eq!((bytes.len(), bytes[0], bytes[40], &bytes[41..44]), (1 + 40 + 16, 1, 1, &[6, 0, 2][..]));
}

#[test]
fn every_shape_that_is_listed_is_made_and_played() {
    let shapes = String::from_utf8(output_of(MAKER, &["shapes"], b"")).unwrap();
    assert!(shapes.lines().count() > 25);
    for line in shapes.lines() {
        let (kind, name) = line.split_once(' ').unwrap();
        let verb = if kind == "report" { "log" } else { kind };
        let made = output_of(MAKER, &[verb, name, "4"], b"");
        match kind {
            "log" | "report" => {
                assert!(output_of(SECOND, &[], &made).ends_with(b"\n"), "{name}");
                assert!(output_of(REPORT, &[], &made).last().is_none_or(|&byte| byte == b'\n'), "{name}");
                let text = output_of(MAKER, &["text"], &made);
                assert_eq!(output_of(MAKER, &["bytes"], &text), made, "{name}");
            }
            "cases" => {
                assert!(output_of(CASES, &[], &made).starts_with(b"case 1\n"), "{name}");
                assert!(output_of(CASES, &["bytes"], &made).starts_with(&[1, 0, 0, 0, 0, 0, 0, 0, 1]), "{name}");
            }
            "report_case" => {
                assert!(output_of(REPORT_CASE, &[], &made).ends_with(b"\n"), "{name}");
                assert!(output_of(REPORT_CASE, &["bytes"], &made).starts_with(&[4]), "{name}");
            }
            "feed_case" => assert!(output_of(FEED_CASE, &[], &made).ends_with(b"--\n"), "{name}"),
            _ => panic!("{line} is not a shape"),
        }
    }
}

#[test]
fn what_cannot_be_read_is_refused_with_a_message_and_no_output() {
    let tries: [(&str, &[&str], &[u8]); 27] = [
        (CASES, &[], b"case a\nclock x\n"),
        (CASES, &["bytes"], b"case a\nmake 1\nclock x\n"),
        (CASES, &[], &[255, 254]),
        (CASES, &["answers"], b""),
        (MAKER, &[], b""),
        (MAKER, &["log", "tiny"], b""),
        (MAKER, &["log", "unknown", "1"], b""),
        (MAKER, &["log", "tiny", "-1"], b""),
        (MAKER, &["logs", "tiny", "1", "/no/such/folder"], b""),
        (SECOND, &["/no/such/folder"], b""),
        (REPORT, &["/no/such/folder"], b""),
        (MAKER, &["stories", "/no/such/folder"], b""),
        (MAKER, &["report_case", "tiny", "1"], b""),
        (REPORT_CASE, &["report"], b""),
        (REPORT_CASE, &[], b"counts 64 0 0 0 0\n"),
        (REPORT_CASE, &["bytes"], b"largest 64\ncounts 0 0 0 0 0\n"),
        (REPORT_CASE, &[], &[255, 254]),
        (MAKER, &["cases", "tiny", "1"], b""),
        (MAKER, &["feed_case", "tiny", "1"], b""),
        (MAKER, &["cuts", "log", "1"], b""),
        (MAKER, &["cuts", "listing", "1", "/no/such/folder"], b""),
        (MAKER, &["feed_stories", "/no/such/folder"], b""),
        (MAKER, &["season", "1"], b""),
        (FEED_CASE, &["/no/such/folder"], b""),
        (FEED_CASE, &[], &[2]),
        (MAKER, &["bytes"], b"serve\nbogus\n"),
        (MAKER, &["bytes"], &[255, 254]),
    ];
    for (program, arguments, input) in tries {
        let output = run(program, arguments, input);
        assert!(!output.status.success(), "{arguments:?}");
        assert!(output.stdout.is_empty() && !output.stderr.is_empty(), "{arguments:?}");
    }
}
