//! Gives the same bytes to the plain reader and to the archive's, and stops at
//! the first difference.

#![forbid(unsafe_code)]

mod coverage;
mod session;
mod trial;
mod work;

use compare::program::{run, Program};
use std::process::ExitCode;

const PROGRAM: Program = Program {
    name: "compare-wire",
    help: HELP,
    counted: "inputs",
    usual: 5_000_000,
    takes_edition: false,
};

const HELP: &str = "\
Gives random bytes to the plain reader and to the archive's: messages of every
kind, damaged ones, cut ones, joined ones and rubbish. Answer, message, bit,
counts, place and length of the part, and both lists are compared.

  --inputs N    how many inputs, at least 1 (default 5000000)
  --seed S      where the random numbers begin (default 1)
  --threads T   how many threads share the inputs, 1 to 256 (default 1)
  --help        this text

Exit code 0: no difference, and every message, refusal, way to a refusal, order
of fields and length of a list was seen, which takes about 200000 inputs. 1: a
difference, or something was not seen. 2: wrong arguments. A difference is
printed with the seed and the number of its input; that seed on one thread meets
it again.";

fn main() -> ExitCode {
    run(&PROGRAM, work::work)
}

#[cfg(test)]
mod tests {
    use super::PROGRAM;

    #[test]
    fn help_says_the_default() {
        assert!(PROGRAM
            .help
            .contains(&format!("at least 1 (default {})", PROGRAM.usual)));
    }
}
