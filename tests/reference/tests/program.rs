//! The binary itself, from standard input to standard output.

mod common;

use std::io::Write;
use std::process::{Command, Stdio};

use common::F;

fn reference(words: &[&str], input: &[u8]) -> (Vec<u8>, bool) {
    let mut child = Command::new(env!("CARGO_BIN_EXE_reference"))
        .args(words)
        .stdin(Stdio::piped())
        .stdout(Stdio::piped())
        .stderr(Stdio::null())
        .spawn()
        .unwrap();
    child.stdin.take().unwrap().write_all(input).unwrap();
    let output = child.wait_with_output().unwrap();
    (output.stdout, output.status.success())
}

fn text(words: &[&str], input: &[u8]) -> String {
    let (output, success) = reference(words, input);
    assert!(success);
    String::from_utf8(output).unwrap()
}

#[test]
fn solve_and_read() {
    let solved = "finished 7 2 2 0\n2 1 0 0 0 0 1\n2 2 0 0 0 0 1\n";
    assert_eq!(text(&["solve"], &F), solved);
    assert_eq!(text(&["solve"], &F[..12]), "refused 1 at 12\n");
    let read = "head 1 1 1 0 0 2 0 0\npolynomial 1 -1 2\n";
    assert_eq!(text(&["read"], &F), read);
    assert_eq!(text(&["read"], &[]), "refused 1 at 0\n");
}

#[test]
fn calls_are_made_and_answered() {
    let (calls, _) = reference(&["make-calls", "7", "300"], &[]);
    let (again, _) = reference(&["make-calls", "7", "600"], &[]);
    assert!(again.starts_with(&calls));
    let answers = text(&["calls"], &calls);
    assert_eq!(answers.lines().count(), 7 * 300);
    assert!(text(&["calls"], &again).starts_with(&answers));
    assert!(!reference(&["calls"], &calls[..calls.len() - 1]).1);
    let names = text(&["name-calls", "7", "300"], &[]);
    assert_eq!(names.lines().count(), 300);
}

#[test]
fn a_wrong_command_line_fails() {
    assert!(!reference(&["dance"], &[]).1);
    assert!(!reference(&["make-calls", "x", "1"], &[]).1);
}
