//! What one side made of a call, in the archive's numbers.

use menhotrac::raw::{Actions, Connection};
use model::slice;

#[derive(Clone, Copy, Debug, PartialEq, Eq)]
pub struct Outcome {
    pub answer: u32,
    pub connection: Connection,
    pub actions: Actions,
}

/// What the slots hold before a call, to see that each is written.
pub const RUBBISH: Actions = Actions {
    message: 77,
    prover: 77,
    verifier: 77,
    h: 77,
    hp: 77,
    hv: 77,
    dat: 77,
    ra: 77,
    ack: 77,
    dat_seconds: 77,
    bit: 77,
    deliver: 77,
    verifier_suite: 77,
    prover_suite: 77,
    payload_slice: 77,
    payload_len: 77,
};

/// The bytes a sheet names, taken as a host would; none if the slice is shorter.
pub fn part<'a>(actions: &Actions, payload: &'a [u8], cache: &'a [u8]) -> Option<&'a [u8]> {
    let whole = match actions.payload_slice {
        slice::PAYLOAD => payload,
        slice::CACHE => cache,
        _ => &[],
    };
    whole.get(..actions.payload_len as usize)
}
