//! The program, and what is expected of it.

use std::io::Write;
use std::process::{Child, Command, Stdio};
use std::thread;

fn start() -> Child {
    Command::new(env!("CARGO_BIN_EXE_model-rows"))
        .stdin(Stdio::piped())
        .stdout(Stdio::piped())
        .spawn()
        .expect("the program starts")
}

/// What the program prints for these bytes. They are written while it prints, so
/// that neither waits for the other.
pub fn printed(input: &[u8]) -> Vec<u8> {
    let mut child = start();
    let mut stdin = child.stdin.take().expect("a pipe");
    let output = thread::scope(|scope| {
        scope.spawn(move || stdin.write_all(input).expect("the program reads all"));
        child.wait_with_output().expect("the program ends")
    });
    assert!(output.status.success());
    output.stdout
}

/// Checks what is printed for each of these lines.
pub fn prints<Line: AsRef<[u8]>, Text: AsRef<str>>(cases: &[(Line, Text)]) {
    let mut input = Vec::new();
    for (line, _) in cases {
        input.extend_from_slice(line.as_ref());
        input.push(b'\n');
    }
    let output = String::from_utf8(printed(&input)).expect("answers are text");
    assert_eq!(output.lines().count(), cases.len());
    for ((line, text), came) in cases.iter().zip(output.lines()) {
        let line = String::from_utf8_lossy(line.as_ref());
        assert_eq!(came, text.as_ref(), "{line}");
    }
}

/// Checks that none of these lines is understood.
pub fn errors<Line: AsRef<[u8]>>(lines: &[Line]) {
    let numbered = lines.iter().zip(1..);
    let cases: Vec<_> = numbered
        .map(|(line, number)| (line, format!("error in line {number}")))
        .collect();
    prints(&cases);
}
