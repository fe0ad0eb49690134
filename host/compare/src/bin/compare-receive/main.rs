//! Gives the same bytes with the same record to the plain reader and the model's
//! step, and to the archive's receive, and stops at the first difference.

#![forbid(unsafe_code)]

mod arrival;
mod coverage;
mod session;
mod trial;
mod work;

use compare::program::{run, Program};
use std::process::ExitCode;

const PROGRAM: Program = Program {
    name: "compare-receive",
    help: HELP,
    counted: "messages",
    usual: 2_000_000,
    takes_edition: true,
};

const HELP: &str = "\
Gives random bytes with random records, caches, tokens and suite lists to the
plain reader and the model's step, and to the archive's receive: messages of
every kind, damaged ones, cut ones, joined ones and rubbish. Answer, record,
actions, place, payload part and cache are compared.

  --messages N  how many messages, at least 1 (default 2000000)
  --seed S      where the random numbers begin (default 1)
  --threads T   how many threads share the messages, 1 to 256 (default 1)
  --edition E   of document 01: printed, or mended by #102 (default mended)
  --help        this text

Exit code 0: no difference, and every answer, transition by a message, pair of
faults and spoilt clause was seen, which takes about 100000 messages. 1: a
difference, or something was not seen. 2: wrong arguments. A difference is
printed with the seed and the number of its message; that seed on one thread
meets it again.";

fn main() -> ExitCode {
    run(&PROGRAM, work::work)
}

#[cfg(test)]
mod tests {
    use super::PROGRAM;

    #[test]
    fn help_says_the_default() {
        assert!(PROGRAM
            .help
            .contains(&format!("at least 1 (default {})", PROGRAM.usual)));
    }
}
