//! The work of one thread.

use crate::coverage::Coverage;
use crate::session::Session;
use compare::options::Options;
use compare::threads::Reporter;
use compare::wire::inputs::Kind;
use model::random::Random;

/// Bytes that tokens and payloads are taken from.
const POOL: usize = 1 << 16;

pub fn work(options: &Options, reporter: &Reporter<Coverage>) -> Option<Coverage> {
    let mut random = Random::new(options.seed);
    let pool: Vec<u8> = (0..POOL).map(|_| random.next_u32() as u8).collect();
    let mut session = Session::new(options.edition, random, &pool);
    reporter.make(options.count, |number| session.give(kind(number)))?;
    Some(session.coverage)
}

/// Mostly messages that can be read, since others reach no step. The kind depends
/// on the number alone, so that the same seed makes the same messages however
/// many are asked for.
fn kind(number: u64) -> Kind {
    match number % 20 {
        0..=12 => Kind::WellFormed,
        13..=15 => Kind::Odd,
        16 => Kind::Damaged,
        17 => Kind::Followed,
        18 if number % 40 < 20 => Kind::Cut,
        18 => Kind::CutInside,
        _ => Kind::Rubbish,
    }
}
