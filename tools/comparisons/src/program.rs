//! The program of this repository.

use crate::cases::Case;
use std::io::Write;
use std::process::{Command, Stdio};

/// Returns the program's result for each case.
pub fn answers(program: &str, cases: &[Case]) -> Vec<String> {
    let mut child = Command::new(program)
        .stdin(Stdio::piped())
        .stdout(Stdio::piped())
        .spawn()
        .expect("the program runs");
    let mut input = child.stdin.take().expect("its input is a pipe");
    let lines: String = cases.iter().map(Case::line).collect();
    let writer = std::thread::spawn(move || input.write_all(lines.as_bytes()).expect("it reads all cases"));
    let output = child.wait_with_output().expect("it ends");
    writer.join().expect("all cases were written");
    assert!(output.status.success(), "it ends well");
    let output = String::from_utf8(output.stdout).expect("it writes text");
    let answers: Vec<String> = output
        .split_terminator('\n')
        .map(|line| line.strip_prefix("-: ").expect("a result begins with the case's name").to_string())
        .collect();
    assert_eq!(answers.len(), cases.len(), "one result for each case");
    answers
}
