//! A comparison as a program.

use crate::options::{self, Options, Request};
use crate::seen::Coverage;
use crate::threads::{self, Reporter};
use std::io::Write;
use std::process::ExitCode;

/// What is said of a program to its user.
pub struct Program {
    pub name: &'static str,
    pub help: &'static str,
    /// What is compared on, in the plural; also the argument that says how many.
    pub counted: &'static str,
    /// How many without that argument.
    pub usual: u64,
    /// Whether the model's edition is an argument; the plain reader has none.
    pub takes_edition: bool,
}

/// Prints a line. A reader who has gone does not stop the comparison.
pub fn say(line: &str) {
    let _ = writeln!(std::io::stdout(), "{line}");
}

/// The whole of a program, whose threads each do this work with a seed and a
/// number of comparisons of their own.
pub fn run<C: Coverage>(
    program: &'static Program,
    work: fn(&Options, &Reporter<C>) -> Option<C>,
) -> ExitCode {
    match options::read(program, std::env::args().skip(1)) {
        Ok(Request::Help) => {
            say(program.help);
            ExitCode::SUCCESS
        }
        Ok(Request::Compare(options)) => match threads::compare(program, &options, work) {
            Ok(summary) => {
                say(&summary);
                ExitCode::SUCCESS
            }
            Err(failure) => {
                say(&failure);
                ExitCode::FAILURE
            }
        },
        Err(mistake) => {
            eprintln!("{}: {mistake}\nTry --help.", program.name);
            ExitCode::from(2)
        }
    }
}
