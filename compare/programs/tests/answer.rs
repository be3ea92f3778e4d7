//! The program `answer`: it streams, it ends well, and it names bad usage.
use std::io::{BufRead, BufReader, Read, Write};
use std::process::{Child, Command, Stdio};

const SETUP: &str = "setup 0 4 8 12 16 20 24 28 32 36 40 44 48 52 56 60 \
    0 0 0 0 0 0x0080000A 0 0 0x1C 0xC060 0x02300000 0 0 0 0x000A0012 0";

fn start() -> Child {
    Command::new(env!("CARGO_BIN_EXE_answer"))
        .stdin(Stdio::piped())
        .stdout(Stdio::piped())
        .spawn()
        .expect("answer starts")
}

fn all(input: &[u8]) -> String {
    let mut child = start();
    child.stdin.take().expect("input").write_all(input).expect("written");
    let mut text = String::new();
    child.stdout.take().expect("output").read_to_string(&mut text).expect("answers");
    assert!(child.wait().expect("ends").success());
    text
}

#[test]
fn each_line_is_answered_before_the_next_is_sent() {
    let mut child = start();
    let mut input = child.stdin.take().expect("input");
    let mut output = BufReader::new(child.stdout.take().expect("output"));
    let mut answer = String::new();
    for (line, expected) in [(SETUP, "0\n"), ("has_left", "0 has_left=0\n"), ("host_pending", "0 host_pending=0\n")] {
        input.write_all(format!("{line}\n").as_bytes()).expect("written");
        answer.clear();
        output.read_line(&mut answer).expect("answered");
        assert_eq!(answer, expected);
    }
    drop(input);
    assert!(child.wait().expect("ends").success());
}

#[test]
fn the_last_line_may_lack_its_line_feed() {
    assert_eq!(all(format!("{SETUP}\nhas_left").as_bytes()), "0\n0 has_left=0\n");
    assert_eq!(all(b""), "");
    assert_eq!(all(b"\n# nothing"), "");
}

#[test]
fn a_line_too_long_is_an_error_and_the_next_is_read() {
    for (length, errors) in [(65_536, 0), (65_537, 1), (200_000, 1)] {
        let comment = format!("#{}", "x".repeat(length - 1));
        let answers = all(format!("{SETUP}\n{comment}\nhas_left\n{comment}").as_bytes());
        assert_eq!(answers.lines().filter(|line| line.starts_with("error: ")).count(), 2 * errors, "{length}");
        assert!(answers.contains("0 has_left=0\n"));
    }
}

#[test]
fn the_longest_row_fills_a_line() {
    let row = |bytes: usize| format!("write_row 0 {}", "5a".repeat(bytes));
    assert_eq!(row(32_762).len(), 65_536);
    let answers = all(format!("{SETUP}\n{}\n{}\nwrite_row 0 -\n", row(32_762), row(32_763)).as_bytes());
    let lines: Vec<&str> = answers.lines().collect();
    assert_eq!(lines[1], "0 made=1152 level=0 wake=420 overflows=0 notices=UartOverflow*1023 passes=1152");
    assert!(lines[2].starts_with("error: "));
    assert_eq!(lines[3], "0 made=0 level=0 wake=420 overflows=0 notices=- passes=0");
}

#[test]
fn a_hand_over_and_a_list_of_frames_fill_a_line_each() {
    let receive = format!("receive 0 0 {}", "5a".repeat(32_762));
    let figures = |zeros: usize| format!("figures 1 {}3", "0".repeat(zeros));
    assert_eq!((receive.len(), figures(65_525).len()), (65_536, 65_536));
    let answers = all(format!("{SETUP}\n{receive}\n{}\n{}\n", figures(65_525), figures(65_526)).as_bytes());
    let lines: Vec<&str> = answers.lines().collect();
    assert_eq!(lines[1..3], ["5", "0 busy=2 shortest=2 longest=2 quiet=0 at=- mean=2 remainder=0"]);
    assert_eq!(lines[3], "error: the line is longer than 65536 bytes");
}

#[test]
fn bytes_that_are_no_text_are_named_and_passed() {
    let answers = all(b"\xFF\xFE\n\0\n");
    assert_eq!(answers.lines().count(), 2);
    assert!(answers.lines().all(|line| line.starts_with("error: ")));
}

#[test]
fn bad_usage_is_named_on_standard_error() {
    for name in [env!("CARGO_BIN_EXE_answer"), env!("CARGO_BIN_EXE_gen"), env!("CARGO_BIN_EXE_diverge")] {
        let ended = Command::new(name).args(["1", "x", "y", "z"]).output().expect("ends");
        assert!(!ended.status.success() && ended.stdout.is_empty());
        assert!(String::from_utf8_lossy(&ended.stderr).contains("usage: "));
        let helped = Command::new(name).arg("--help").output().expect("ends");
        assert!(helped.status.success() && String::from_utf8_lossy(&helped.stdout).contains("usage: "));
    }
}
