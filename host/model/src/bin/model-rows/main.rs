//! Prints what the model says of each row on standard input. The first lines of
//! `crates/cases/stdin` describe the form of the rows and of the answers.

#![forbid(unsafe_code)]

mod answer;
mod bytes;
mod items;
mod lines;
mod print;
mod row;

use lines::{Line, Lines};
use row::Row;
use std::io::{self, BufRead, BufWriter, Write};

fn main() -> io::Result<()> {
    run(io::stdin().lock(), BufWriter::new(io::stdout().lock()))
}

/// One line is printed for each that is read.
fn run(input: impl BufRead, mut output: impl Write) -> io::Result<()> {
    for (number, line) in (1_u64..).zip(Lines(input)) {
        match printed(line?) {
            Some(text) => output.write_all(&text)?,
            None => write!(output, "error in line {number}")?,
        }
        output.write_all(b"\n")?;
    }
    output.flush()
}

/// What is printed for a line; none if it cannot be understood.
fn printed(line: Line) -> Option<Vec<u8>> {
    match line {
        Line::TooLong => None,
        Line::Whole(text) if text.is_empty() || text.starts_with(b"#") => Some(text),
        Line::Whole(text) => Row::read(&text).map(|row| row.answer().into_bytes()),
    }
}
