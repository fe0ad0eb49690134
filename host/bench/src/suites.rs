//! The archive's choice of suites measured beside the search that it had before request #103 and beside ordinary Rust:
//! the same lists, the programs in turn, the median of many rounds.

pub mod mixes;
mod programs;

use crate::measure::median;
use menhotrac::raw::Lists;
use mixes::{Call, Mix};
use programs::{Program, PROGRAMS};
use std::hint::black_box;
use std::time::Instant;

/// How often the calls of a mix are made in one replay.
const LAPS: usize = 10;

/// Nanoseconds a call. All programs are called from this one loop, so that its layout in memory favours none.
#[inline(never)]
fn replay(calls: &[Lists], program: &Program) -> f64 {
    let choose = black_box(program.choose);
    let start = Instant::now();
    for _ in 0..LAPS {
        for lists in calls {
            black_box(&choose(black_box(lists)));
        }
    }
    start.elapsed().as_nanos() as f64 / (LAPS * calls.len()) as f64
}

fn lists_of(mix: &Mix) -> Vec<Lists<'_>> {
    mix.calls.iter().map(Call::lists).collect()
}

/// Stops if the programs differ on a call of the mix.
fn check(mix: &Mix) {
    let [archive, others @ ..] = PROGRAMS;
    for lists in lists_of(mix) {
        for other in &others {
            assert_eq!(
                (archive.choose)(&lists),
                (other.choose)(&lists),
                "{}: {} and {} differ",
                mix.name,
                archive.name,
                other.name
            );
        }
    }
}

/// Times of the programs, in their order. Each round begins with the next program, so that none always follows the
/// same one.
fn compare_on(mix: &Mix, rounds: usize) -> [f64; 3] {
    check(mix);
    let calls = lists_of(mix);
    let mut times = [vec![], vec![], vec![]];
    let mut order = [0, 1, 2];
    for _ in 0..rounds {
        for program in order {
            times[program].push(replay(&calls, &PROGRAMS[program]));
        }
        order.rotate_left(1);
    }
    times.map(|mut all| median(&mut all))
}

pub fn report(rounds: usize) {
    println!(
        "{:16} {:>9} {:>9} {:>9} {:>10} {:>10}",
        "mix", "archive", "former", "rust", "archive to", "archive to"
    );
    println!(
        "{:16} {:>9} {:>9} {:>9} {:>10} {:>10}",
        "", "ns", "ns", "ns", "former", "rust"
    );
    for mix in mixes::all() {
        let [archive, former, rust] = compare_on(&mix, rounds);
        let (to_former, to_rust) = (archive / former, archive / rust);
        println!(
            "{:16} {archive:9.1} {former:9.1} {rust:9.1} {to_former:10.2} {to_rust:10.2}",
            mix.name
        );
    }
}

/// Replays for a tool that counts, and tells how many calls there were; none if there is no such program.
pub fn count(mix: &Mix, name: &str) -> Option<usize> {
    let program = PROGRAMS.iter().find(|program| program.name == name)?;
    replay(&lists_of(mix), program);
    Some(LAPS * mix.calls.len())
}
