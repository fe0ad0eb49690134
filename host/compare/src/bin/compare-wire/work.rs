//! The work of one thread.

use crate::coverage::Coverage;
use crate::session::Session;
use compare::options::Options;
use compare::threads::Reporter;
use compare::wire::inputs::{Inputs, Kind};
use model::random::Random;

/// Bytes that tokens and payloads are taken from.
const POOL: usize = 1 << 16;

pub fn work(options: &Options, reporter: &Reporter<Coverage>) -> Option<Coverage> {
    let mut random = Random::new(options.seed);
    let pool: Vec<u8> = (0..POOL).map(|_| random.next_u32() as u8).collect();
    let mut session = Session::new(Inputs::new(random, &pool));
    reporter.make(options.count, |number| session.give(kind(number)))?;
    Some(session.coverage)
}

/// The kind of an input depends on its number alone, so that the same seed makes
/// the same inputs however many are asked for.
fn kind(number: u64) -> Kind {
    match number % 20 {
        0..=4 => Kind::WellFormed,
        5..=9 => Kind::Odd,
        10..=12 => Kind::Damaged,
        13 | 14 => Kind::Followed,
        15 => Kind::Cut,
        16 | 17 => Kind::CutInside,
        _ => Kind::Rubbish,
    }
}
