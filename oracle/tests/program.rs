//! The program itself: its subcommands and its exit statuses.

use std::fs;
use std::io::Write;
use std::path::PathBuf;
use std::process::{Command, Output, Stdio};

/// Runs the program with a text on its standard input.
fn run(arguments: &[&str], input: &str) -> Output {
    let mut program = Command::new(env!("CARGO_BIN_EXE_oracle"))
        .args(arguments)
        .stdin(Stdio::piped())
        .stdout(Stdio::piped())
        .stderr(Stdio::piped())
        .spawn()
        .expect("the program starts");
    let mut stdin = program.stdin.take().expect("it was piped");
    let input = input.to_owned();
    // The program may write before it has read all, and it may end without reading.
    let writer = std::thread::spawn(move || stdin.write_all(input.as_bytes()));
    let output = program.wait_with_output().expect("the program ends");
    let _ = writer.join();
    output
}

fn text(bytes: &[u8]) -> &str {
    std::str::from_utf8(bytes).expect("the program writes ASCII")
}

/// A file of this test's own.
fn file(name: &str, content: &str) -> PathBuf {
    let path = PathBuf::from(env!("CARGO_TARGET_TMPDIR")).join(name);
    fs::write(&path, content).expect("the folder for tests can be written");
    path
}

/// The status and output of a check of these lines.
fn check(name: &str, content: &str) -> (Option<i32>, String) {
    let path = file(name, content);
    let output = run(&["check", path.to_str().expect("the path is text")], "");
    (output.status.code(), text(&output.stdout).to_owned())
}

#[test]
fn vectors_agree_with_themselves() {
    let vectors = run(&["vectors", "7", "200"], "");
    assert_eq!(vectors.status.code(), Some(0));
    let lines = text(&vectors.stdout);
    assert_eq!(lines.lines().count(), 200);
    assert_eq!(check("good.txt", lines), (Some(0), "200 of 200 agree\n".to_owned()));
    // The same seed gives the same lines, and a longer run begins with them.
    let longer = run(&["vectors", "7", "300"], "");
    assert!(text(&longer.stdout).starts_with(lines));
}

#[test]
fn answer_writes_the_vectors_again() {
    let vectors = run(&["vectors", "8", "100"], "");
    let lines = text(&vectors.stdout);
    let questions: String =
        lines.lines().map(|line| line.split(' ').take(4).collect::<Vec<_>>().join(" ") + "\n").collect();
    assert_eq!(text(&run(&["answer"], &questions).stdout), lines);
}

#[test]
fn differences_are_shown_and_counted() {
    let tight = "00".repeat(21);
    let lines = format!(
        "Expr {tight} 010000000000000001000000 78 78 0\n\
         Expr {tight} 010000000000000001000000 78 79 0\n\
         Expr {tight} 010000000000000001000000 78 78 1\n"
    );
    let (status, output) = check("bad.txt", &lines);
    assert_eq!(status, Some(1));
    assert_eq!(
        output,
        "line 2 differs\n  file:   79 0\n  oracle: 78 0\nline 3 differs\n  file:   78 1\n  oracle: 78 0\n1 of 3 agree\n"
    );
}

#[test]
fn samples_repeat_by_seed() {
    // The first record is no case: it says what is asked, and has the cases' number.
    for (asked, kind) in [("Expr", 0), ("Unit", 80), ("Name", 1)] {
        let [first, again, other] = ["1", "1", "2"].map(|seed| run(&["sample", asked, seed], "").stdout);
        assert!(first == again && first != other);
        assert_eq!(first[..4], [kind, 0, 0, 0]);
    }
}

#[test]
fn exact_has_a_line_for_each_size() {
    let output = run(&["exact", "2"], "");
    assert_eq!(output.status.code(), Some(0));
    let words: Vec<Vec<&str>> = text(&output.stdout).lines().map(|line| line.split_whitespace().collect()).collect();
    assert_eq!(words[0], ["records", "expressions", "apart", "joined", "wrong", "unlike"]);
    assert_eq!(words[1], ["1", "9", "9", "0", "0", "0"]);
    // Joined are three dots over each of two ints, and `--1`.
    assert_eq!(words[2], ["2", "108", "101", "7", "0", "0"]);
    assert_eq!(words.len(), 3);
}

#[test]
fn needed_has_two_lines_for_each_size() {
    let output = run(&["needed", "2"], "");
    assert_eq!(output.status.code(), Some(0));
    let words: Vec<Vec<&str>> = text(&output.stdout).lines().map(|line| line.split_whitespace().collect()).collect();
    assert_eq!(words[0], ["records", "settings", "texts", "spaced", "spaces", "misread", "needless", "unlike"]);
    assert_eq!(words[1], ["1", "TIGHT", "9", "0", "0", "0", "0", "0"]);
    // As many as are joined: none has a binary operator, which operator spaces would help.
    for (line, settings) in words[3..].iter().zip(["TIGHT", "OPEN"]) {
        assert_eq!(*line, ["2", settings, "108", "7", "7", "0", "0", "0"]);
    }
    assert_eq!(words.len(), 5);
}

#[test]
fn layout_has_a_line_for_each_number() {
    let output = run(&["layout", "1", "200"], "");
    assert_eq!(output.status.code(), Some(0));
    let lines: Vec<&str> = text(&output.stdout).lines().collect();
    let words: Vec<Vec<&str>> = lines.iter().map(|line| line.split_whitespace().collect()).collect();
    assert_eq!(words[0], ["units", "with", "signs", "expressions", "with", "signs"]);
    assert_eq!([words[1][1], words[1][3]], ["200"; 2]);
    // The numbers that must be 0.
    let zeros =
        lines.iter().filter(|line| line.ends_with(&format!("{:>14}", 0).repeat(4))).map(|line| line[..24].trim());
    assert!(
        zeros.eq(["unlike", "texts of other tokens", "wrong", "misread", "needless", "misread apart", "mistaken"]),
        "{lines:?}"
    );
    assert_eq!(words.len(), 20);
}

#[test]
fn layout_of_nothing_is_a_fault() {
    let output = run(&["layout", "1", "0"], "");
    assert_eq!(output.status.code(), Some(1));
    assert!(text(&output.stdout).ends_with("\nall texts, lacking: must not be 0\n"));
}

#[test]
fn faults_end_with_status_2_and_a_message() {
    let missing = run(&["check", "no such file"], "");
    let cut = run(&["answer"], "Expr 00\n");
    let number = run(&["vectors", "one", "2"], "");
    let usage = run(&[], "");
    for (output, message) in
        [(missing, "no such file: "), (cut, "line 1: 4 fields are expected"), (number, "one: "), (usage, "usage: ")]
    {
        assert_eq!(output.status.code(), Some(2));
        assert!(text(&output.stderr).starts_with(message), "{}", text(&output.stderr));
    }
}
