//! The choice of attestation suites.

use crate::raw;
use crate::refusal::Refusal;

pub use crate::raw::{Lists, OurLists};

/// The most entries of a suite list.
pub const MAX_LIST_LEN: usize = 16;

/// The chosen suites, where the connection opens.
#[derive(Clone, Copy, Debug, PartialEq, Eq)]
pub struct Suites {
    /// The suite that our verifier runs.
    pub verifier: u32,
    /// The suite that our prover runs.
    pub prover: u32,
}

/// The choice of suites, asked alone.
#[derive(Clone, Copy, Debug, PartialEq, Eq)]
pub struct Choice {
    /// The first entry of our verifiers found in the peer's provers.
    pub verifier: Option<u32>,
    /// The first entry of the peer's verifiers found in our provers.
    pub prover: Option<u32>,
}

/// The suites that a HELLO with these lists would choose. Its one refusal is [`Refusal::ListTooLong`].
pub fn choose_suites(lists: &Lists) -> Result<Choice, Refusal> {
    let choice = raw::choose_suites(lists);
    match Refusal::from_number(choice.refusal) {
        Some(refusal) => Err(refusal),
        None => Ok(Choice {
            verifier: found(choice.verifier_found, choice.verifier),
            prover: found(choice.prover_found, choice.prover),
        }),
    }
}

const fn found(found: u32, suite: u32) -> Option<u32> {
    match found {
        0 => None,
        _ => Some(suite),
    }
}
