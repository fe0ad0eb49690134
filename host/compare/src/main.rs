//! Gives the same calls to the model of document 01 and to the archive, and
//! stops at the first difference.

#![forbid(unsafe_code)]

mod alone;
mod arbitrary;
mod arguments;
mod coverage;
mod draw;
mod session;
mod trial;
mod walk;
mod work;

use compare::program::{run, Program};
use compare::{difference, translate};
use std::process::ExitCode;

const PROGRAM: Program = Program {
    name: "compare",
    help: HELP,
    counted: "calls",
    usual: 6_000_000,
    takes_edition: true,
};

const HELP: &str = "\
Gives random calls to the model of document 01 and to the archive, and compares
answer, record, actions, payload part and cache after each. No live event may be
ignored, and in runs from fresh the tags that are on have to be those of the
timers and drivers that run by the actions.

  --calls N     how many calls, at least 1 (default 6000000)
  --seed S      where the random numbers begin (default 1)
  --threads T   how many threads share the calls, 1 to 256 (default 1)
  --edition E   of document 01: printed, or mended by #102 (default mended)
  --help        this text

Exit code 0: no difference, and every transition, refusal, pair of faults and
spoilt clause was seen, which takes about half a million calls. 1: a difference,
or something was not seen. 2: wrong arguments. A difference is printed with the
seed and the number of its call; that seed on one thread meets it again.";

fn main() -> ExitCode {
    run(&PROGRAM, work::work)
}

#[cfg(test)]
mod tests {
    use super::PROGRAM;

    #[test]
    fn steps_five_million_times_by_default() {
        const { assert!(PROGRAM.usual / 20 * 19 >= 5_000_000) };
        let default = format!(
            "--calls N     how many calls, at least 1 (default {})",
            PROGRAM.usual
        );
        assert!(PROGRAM.help.contains(&default));
    }
}
