//! The archive's reader measured beside the plain one: the same messages, the readers in turn, the median of many
//! rounds. The plain one is ordinary Rust written by hand, so it is baseline and model in one.

pub mod mixes;

use crate::measure::median;
use compare::reading::Reading;
use menhotrac::raw::{self, SuiteEntries};
use mixes::Mix;
use model::wire::{self, Fault, Message};
use std::hint::black_box;
use std::time::Instant;

/// How often the messages of a mix are read in one replay.
const LAPS: usize = 100;

/// Reads with the plain reader, by a call as opaque as that of the archive.
#[inline(never)]
fn plain(bytes: &[u8]) -> Result<Message<'_>, Fault> {
    wire::read(bytes)
}

/// Nanoseconds a message.
fn replay(mix: &Mix, mut read: impl FnMut(&[u8])) -> f64 {
    let start = Instant::now();
    for _ in 0..LAPS {
        for bytes in &mix.messages {
            read(black_box(bytes));
        }
    }
    start.elapsed().as_nanos() as f64 / (LAPS * mix.messages.len()) as f64
}

pub fn replay_archive(mix: &Mix) -> f64 {
    let (mut provers, mut verifiers) = (SuiteEntries::default(), SuiteEntries::default());
    replay(mix, |bytes| {
        black_box(&raw::read(bytes, &mut provers, &mut verifiers));
    })
}

pub fn replay_plain(mix: &Mix) -> f64 {
    replay(mix, |bytes| {
        black_box(&plain(bytes));
    })
}

/// Stops if the readers differ on a message of the mix.
pub fn check(mix: &Mix) {
    for bytes in &mix.messages {
        let lists = [[77; 16]; 2];
        let archive = Reading::of_archive(bytes, lists);
        let plain = Reading::of_plain(bytes, &plain(bytes), lists);
        assert_eq!(archive, plain, "{}: the readers differ", mix.name);
    }
}

/// Times of the archive and of the plain reader. Each round begins with the other one.
fn compare_on(mix: &Mix, rounds: usize) -> [f64; 2] {
    check(mix);
    let mut times = [vec![], vec![]];
    for round in 0..rounds {
        for reader in [round % 2, 1 - round % 2] {
            times[reader].push(match reader {
                0 => replay_archive(mix),
                _ => replay_plain(mix),
            });
        }
    }
    times.map(|mut all| median(&mut all))
}

pub fn report(rounds: usize) {
    println!(
        "{:16} {:>12} {:>9} {:>9} {:>10}",
        "mix", "messages/s", "archive", "rust", "archive to"
    );
    println!(
        "{:16} {:>12} {:>9} {:>9} {:>10}",
        "", "of archive", "ns", "ns", "rust"
    );
    for mix in mixes::all() {
        let [archive, rust] = compare_on(&mix, rounds);
        let (rate, ratio) = (1e9 / archive, archive / rust);
        println!(
            "{:16} {rate:12.0} {archive:9.1} {rust:9.1} {ratio:10.2}",
            mix.name
        );
    }
}

/// Replays for a tool that counts, and tells how many messages were read; none if there is no such reader.
pub fn count(mix: &Mix, reader: &str) -> Option<usize> {
    match reader {
        "archive" => replay_archive(mix),
        "rust" => replay_plain(mix),
        _ => return None,
    };
    Some(LAPS * mix.messages.len())
}
