//! Measures the archive's step, reader and choice of suites beside ordinary Rust, the step also beside the model, and
//! the choice also beside the search that it had before request #103: the same calls, the programs in turn, the median
//! of many rounds.

#![forbid(unsafe_code)]

mod baseline;
mod engines;
mod measure;
mod mixes;
mod suites;
mod wire;

use engines::{Archive, Baseline, Model};
use measure::{median, replay, Lent};
use mixes::Mix;
use std::process::ExitCode;

const HELP: &str = "\
Measures the archive's step beside one in ordinary Rust and beside the model, the archive's reader beside one in
ordinary Rust, and the archive's choice of suites beside the search that it had before request #103 (former) and beside
one in ordinary Rust.

  bench                     all mixes, medians of 301 rounds
  bench step                those of the step alone
  bench read                those of the reader alone
  bench suites              those of the choice of suites alone
  bench MIX PROGRAM         replays of one mix by one program, archive or rust, or former for a mix of the suites, for a
                            tool that counts instructions
  bench --help              this text

Mixes of the step: handshake, data-1, data-4096, re-attestation, ignored, refused.
Mixes of the reader: read-hello, read-hello-16, read-data-1, read-data-4096, read-ack, read-close, read-refused.
Mixes of the suites: suites-repeats, suites-none, suites-first, suites-last, suites-short, suites-one, suites-two,
suites-three, suites-five, suites-seven, suites-spread, suites-runs, suites-mixed.";
const ROUNDS: usize = 301;
const CALLS: usize = 3_000;
const REPLAYS: usize = 10;

/// Times of the three programs on one mix. Each round begins with the next program, so that none always follows the
/// same one.
fn compare_on(mix: &Mix, lent: &mut Lent) -> [f64; 3] {
    let (mut archive, mut rust, mut model) =
        (Archive::default(), Baseline::default(), Model::default());
    let mut times = [vec![], vec![], vec![]];
    let mut order = [0, 1, 2];
    for _ in 0..ROUNDS {
        let mut seen = [None; 3];
        for program in order {
            let replay = match program {
                0 => replay(&mut archive, mix, lent),
                1 => replay(&mut rust, mix, lent),
                _ => replay(&mut model, mix, lent),
            };
            times[program].push(replay.nanoseconds);
            seen[program] = Some(replay.seen);
        }
        let name = mix.name;
        assert_eq!(seen[0], seen[1], "{name}: archive and ordinary Rust differ");
        assert_eq!(seen[0], seen[2], "{name}: archive and model differ");
        order.rotate_left(1);
    }
    times.map(|mut all| median(&mut all))
}

fn report_steps() {
    println!(
        "{:16} {:>12} {:>9} {:>9} {:>9} {:>10}",
        "mix", "steps/s", "archive", "rust", "model", "archive to"
    );
    println!(
        "{:16} {:>12} {:>9} {:>9} {:>9} {:>10}",
        "", "of archive", "ns", "ns", "ns", "rust"
    );
    let mut lent = Lent::new();
    for mix in mixes::all(CALLS) {
        let [archive, rust, model] = compare_on(&mix, &mut lent);
        let (rate, ratio) = (1e9 / archive, archive / rust);
        println!(
            "{:16} {rate:12.0} {archive:9.1} {rust:9.1} {model:9.1} {ratio:10.2}",
            mix.name
        );
    }
}

/// Replays for a tool that counts, and tells how many calls there were; none if there is no such program.
fn count_steps(mix: &Mix, program: &str) -> Option<usize> {
    let mut lent = Lent::new();
    for _ in 0..REPLAYS {
        match program {
            "archive" => replay(&mut Archive::default(), mix, &mut lent),
            "rust" => replay(&mut Baseline::default(), mix, &mut lent),
            _ => return None,
        };
    }
    Some(REPLAYS * mix.calls.len())
}

fn count(name: &str, program: &str) -> Result<usize, String> {
    let steps = mixes::all(CALLS);
    let messages = wire::mixes::all();
    let choices = suites::mixes::all();
    let step = steps.iter().find(|mix| mix.name == name);
    let message = messages.iter().find(|mix| mix.name == name);
    let choice = choices.iter().find(|mix| mix.name == name);
    let counted = match (step, message, choice) {
        (Some(mix), _, _) => count_steps(mix, program),
        (_, Some(mix), _) => wire::count(mix, program),
        (_, _, Some(mix)) => suites::count(mix, program),
        _ => return Err(format!("there is no mix \"{name}\"")),
    };
    counted.ok_or_else(|| format!("there is no program \"{program}\""))
}

fn run(words: &[String]) -> Result<(), String> {
    match words {
        [] => {
            report_steps();
            println!();
            wire::report(ROUNDS);
            println!();
            suites::report(ROUNDS);
        }
        [word] if word == "step" => report_steps(),
        [word] if word == "read" => wire::report(ROUNDS),
        [word] if word == "suites" => suites::report(ROUNDS),
        [word] if word == "--help" || word == "-h" => println!("{HELP}"),
        [name, program] => println!("{}", count(name, program)?),
        _ => return Err("wrong arguments".into()),
    }
    Ok(())
}

fn main() -> ExitCode {
    let words: Vec<String> = std::env::args().skip(1).collect();
    match run(&words) {
        Ok(()) => ExitCode::SUCCESS,
        Err(sentence) => {
            eprintln!("bench: {sentence}\n\n{HELP}");
            ExitCode::from(2)
        }
    }
}
