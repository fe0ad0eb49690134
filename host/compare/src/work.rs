//! The calls of one thread.

use crate::alone;
use crate::arbitrary::Arbitrary;
use crate::coverage::Coverage;
use crate::difference::Checked;
use crate::session::Session;
use crate::walk::Walk;
use compare::options::Options;
use compare::threads::Reporter;
use model::random::Random;

/// Bytes that payloads are cut from.
const BYTES: usize = 1 << 16;

pub fn work(options: &Options, reporter: &Reporter<Coverage>) -> Option<Coverage> {
    let mut random = Random::new(options.seed);
    let bytes: Vec<u8> = (0..BYTES).map(|_| random.next_u32() as u8).collect();
    let mut session = Session {
        edition: options.edition,
        random,
        bytes: &bytes,
        coverage: Coverage::default(),
    };
    let mut walk = Walk::new(&bytes);
    let mut arbitrary = Arbitrary::new(&bytes);
    reporter.make(options.count, |number| {
        call(number, &mut walk, &mut arbitrary, &mut session)
    })?;
    Some(session.coverage)
}

/// The kind of a call depends on its number alone, so that the same seed makes
/// the same calls however many are asked for.
fn call(
    number: u64,
    walk: &mut Walk,
    arbitrary: &mut Arbitrary,
    session: &mut Session,
) -> Checked<()> {
    match number % 20 {
        0..=11 => walk.call(session),
        12..=18 => arbitrary.call(session),
        _ => alone::call(session),
    }
}
