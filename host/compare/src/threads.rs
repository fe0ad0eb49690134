//! The threads that share the comparisons, and what they report.

use crate::difference::{Checked, Difference};
use crate::options::Options;
use crate::program::{say, Program};
use crate::seen::Coverage;
use model::random::Random;
use std::iter::once;
use std::sync::mpsc::{channel, Receiver, Sender};
use std::thread;
use std::time::Instant;

/// Comparisons between two reports of a thread.
const BATCH: u64 = 1_000;

/// What a thread reports.
enum Report<C> {
    Done(u64),
    Differs(u64, u64, Box<Difference>),
    Finished(C),
}

/// A thread's way to report.
pub struct Reporter<C> {
    seed: u64,
    sender: Sender<Report<C>>,
}

impl<C> Reporter<C> {
    /// Makes so many comparisons, each told its number from 1, and reports. None
    /// if there was a difference, or if nobody listens any more.
    pub fn make(&self, count: u64, mut compare: impl FnMut(u64) -> Checked<()>) -> Option<()> {
        for number in 1..=count {
            if let Err(difference) = compare(number) {
                let _ = self
                    .sender
                    .send(Report::Differs(self.seed, number, difference));
                return None;
            }
            if number % BATCH == 0 {
                self.sender.send(Report::Done(BATCH)).ok()?;
            }
        }
        self.sender.send(Report::Done(count % BATCH)).ok()
    }
}

/// Runs the comparison. A summary comes back if nothing differed and everything
/// asked for was seen, else what went wrong.
pub fn compare<C: Coverage>(
    program: &Program,
    options: &Options,
    work: fn(&Options, &Reporter<C>) -> Option<C>,
) -> Result<String, String> {
    let (sender, receiver) = channel();
    let mut derived = Random::new(options.seed);
    let seeds = once(options.seed).chain(std::iter::repeat_with(|| derived.next_u64()));
    for (thread, seed) in (0..options.threads).zip(seeds) {
        let extra = u64::from(thread < options.count % options.threads);
        let share = Options {
            count: options.count / options.threads + extra,
            seed,
            ..*options
        };
        let sender = sender.clone();
        thread::spawn(move || {
            let reporter = Reporter { seed, sender };
            if let Some(coverage) = work(&share, &reporter) {
                let _ = reporter.sender.send(Report::Finished(coverage));
            }
        });
    }
    drop(sender);
    let (summary, complete) = listen(program, options, &receiver)?.summary();
    let head = format!("{}\n{summary}", run(program, options));
    if complete {
        Ok(head + "no difference")
    } else {
        Err(head + "FAILED: no difference, but not what had to be seen")
    }
}

/// What is needed to make the same run again.
fn run(program: &Program, options: &Options) -> String {
    let (counted, count, seed) = (program.counted, options.count, options.seed);
    let run = format!(
        "{counted} {count}, seed {seed}, threads {}",
        options.threads
    );
    if program.takes_edition {
        run + ", edition " + options.edition.name()
    } else {
        run
    }
}

/// Prints a line for every tenth of the work until all threads have finished.
fn listen<C: Coverage>(
    program: &Program,
    options: &Options,
    receiver: &Receiver<Report<C>>,
) -> Result<C, String> {
    let begin = Instant::now();
    let mut coverage = C::default();
    let mut done = 0;
    let mut finished = 0;
    for report in receiver {
        match report {
            Report::Done(more) => {
                let tenth = |count: u64| u128::from(count) * 10 / u128::from(options.count);
                let before = tenth(done);
                done += more;
                if tenth(done) > before {
                    let (all, counted) = (options.count, program.counted);
                    let seconds = begin.elapsed().as_secs_f64();
                    say(&format!("{done} of {all} {counted}, {seconds:.1} s"));
                }
            }
            Report::Finished(seen) => {
                coverage.add(seen);
                finished += 1;
            }
            Report::Differs(seed, number, difference) => {
                let place = format!("seed {seed}, number {number} of the {}", program.counted);
                return Err(format!("DIFFERENCE, {place}: {difference}"));
            }
        }
    }
    if finished == options.threads {
        Ok(coverage)
    } else {
        Err("FAILED: a thread broke off".into())
    }
}
