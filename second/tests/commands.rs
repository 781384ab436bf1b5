//! The commands as a whole: comparing with itself, with a wrong program, drawing a log again, telling all apart.

use std::io::Write;
use std::process::{Command, Output, Stdio};

const SECOND: &str = env!("CARGO_BIN_EXE_second");

fn run(words: &[&str]) -> Output {
    Command::new(SECOND).args(words).output().expect("it runs")
}

fn text(output: &Output) -> String {
    String::from_utf8(output.stdout.clone()).expect("plain text")
}

fn run_log(octets: &[u8], words: &[&str]) -> String {
    let mut child = Command::new(SECOND)
        .args(words)
        .stdin(Stdio::piped())
        .stdout(Stdio::piped())
        .spawn()
        .expect("it runs");
    let mut input = child.stdin.take().expect("a pipe");
    let octets = octets.to_vec();
    let writer = std::thread::spawn(move || {
        let _ = input.write_all(&octets);
    });
    let output = child.wait_with_output().expect("it ends");
    writer.join().expect("it wrote");
    text(&output)
}

#[test]
fn no_difference_with_itself() {
    let output = run(&[
        "compare",
        "--seed",
        "11",
        "--records",
        "40000",
        SECOND,
        "log",
    ]);
    let text = text(&output);
    assert!(output.status.success(), "{text}");
    assert!(text.starts_with("seed 11\n- 4 "), "{text}");
    assert!(text.ends_with(" logs, no difference\n"), "{text}");
}

#[test]
fn too_few_records_do_not_reach_all() {
    let output = run(&["compare", "--seed", "11", "--records", "1", SECOND, "log"]);
    assert_eq!(output.status.code(), Some(1));
    assert!(text(&output).contains(" did not occur\n"));
}

#[test]
fn difference_is_shown_and_drawn_again() {
    let wrong = ["log", "--wrong", "bulk_ended_at_first_bad_entry"];
    let words = ["compare", "--seed", "12", "--records", "5000", SECOND];
    let output = run(&[&words[..], &wrong].concat());
    assert_eq!(output.status.code(), Some(1));
    let text_of = text(&output);
    let lines: Vec<&str> = text_of.lines().collect();
    assert_eq!(lines[0], "seed 12");
    assert!(lines[1].starts_with("difference: seed 12, log "));
    assert!(lines[2].starts_with("record 4D41"));
    let again: Vec<&str> = lines[5].split(' ').skip(1).collect();
    let log = run(&again).stdout;
    let ours = run_log(&log, &["log"]);
    let theirs = run_log(&log, &wrong);
    assert!(ours
        .lines()
        .any(|line| line == &lines[3]["ours   ".len()..]));
    assert!(theirs
        .lines()
        .any(|line| line == &lines[4]["theirs ".len()..]));
}

#[test]
fn every_wrong_program_is_told_apart() {
    let names = text(&run(&["wrong"]));
    for seed in ["1", "2"] {
        let output = run(&["tell-apart", "--seed", seed, "--records", "40000"]);
        let text = text(&output);
        assert!(output.status.success(), "{text}");
        assert_eq!(text.lines().count(), names.lines().count() + 2);
    }
}

#[test]
fn silent_program_is_told_apart() {
    let output = run(&["compare", "--seed", "3", "--records", "10", "true"]);
    assert_eq!(output.status.code(), Some(1));
    assert!(text(&output).contains("\ntheirs \n"));
}
