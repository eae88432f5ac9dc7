//! The command: what it writes where, and its exit status.

use std::path::Path;
use std::process::Command;

/// The exit status, stdout and stderr of a run in the repository.
fn run(arguments: &[&str]) -> (Option<i32>, String, String) {
    let mut command = Command::new(env!("CARGO_BIN_EXE_tree"));
    command.current_dir(Path::new(env!("CARGO_MANIFEST_DIR")).join("../.."));
    let output = command.args(arguments).output().expect("it runs");
    let text = |bytes: Vec<u8>| String::from_utf8(bytes).expect("it is UTF-8");
    (output.status.code(), text(output.stdout), text(output.stderr))
}

#[test]
fn help_is_asked_for() {
    let (_, _, usage) = run(&[]);
    assert!(usage.starts_with("tree write FILE FOLDER "), "{usage}");
    for word in ["help", "--help", "-h"] {
        assert_eq!(run(&[word]), (Some(0), usage.clone(), String::new()), "{word}");
    }
}

#[test]
fn wrong_words_are_refused() {
    for words in [&["none"][..], &[], &["--none"], &["words", "more"], &["explain", "examples/shader.txt", "x", "0"]] {
        let (status, out, usage) = run(words);
        assert_eq!((status, out), (Some(1), String::new()), "{words:?}");
        assert!(usage.contains("tree explain FILE N P "), "{usage}");
    }
}

#[test]
fn what_is_no_refusal_is_not_explained() {
    for (number, place, doubt) in [
        ("99", "3", "there is no refusal 99; they have the numbers 1 to 13, 15\n"),
        ("15", "2", "this tree is not refused by 15 at 2: its records fit together\n"),
        ("7", "3", "this tree is not refused by 7 at 3: its records fit together\n"),
        ("2", "0", "this tree is not refused by 2 at 0: its records and names have sizes that are allowed\n"),
        ("11", "2", "this tree is not refused by 11 at 2: its records fit together\n"),
    ] {
        let found = run(&["explain", "examples/shader.txt", number, place]);
        assert_eq!(found, (Some(1), String::new(), doubt.into()));
    }
    let (status, lines, _) = run(&["explain", "examples/shader.txt", "13", "70000"]);
    assert_eq!((status, lines.lines().count()), (Some(0), 2), "{lines}");
}

#[test]
fn trees_are_checked() {
    let data = "crates/print/data";
    assert_eq!(run(&["check", "examples/shader.txt", data]), (Some(0), String::new(), String::new()));
    let (status, _, told) = run(&["check", "examples/filter.txt", data]);
    assert_eq!(
        (status, told.as_str()),
        (Some(1), "crates/print/data/tree.rec is not what examples/filter.txt makes\n")
    );
}
