//! Events, what they carry, and the call that gives one.

use crate::suites::Lists;
use crate::token;

/// "Events, by code".
pub mod code {
    pub const UPPER_START_HANDSHAKE: u32 = 0;
    pub const UPPER_CLOSE: u32 = 1;
    pub const UPPER_SEND_DATA: u32 = 2;
    pub const UPPER_RE_RA: u32 = 3;
    pub const RA_VERIFIER_OK: u32 = 4;
    pub const RA_VERIFIER_FAILED: u32 = 5;
    pub const RA_VERIFIER_MSG: u32 = 6;
    pub const RA_PROVER_OK: u32 = 7;
    pub const RA_PROVER_FAILED: u32 = 8;
    pub const RA_PROVER_MSG: u32 = 9;
    pub const SC_ERROR: u32 = 10;
    pub const SC_HELLO: u32 = 11;
    pub const SC_CLOSE: u32 = 12;
    pub const SC_DAT: u32 = 13;
    pub const SC_DAT_EXPIRED: u32 = 14;
    pub const SC_RA_PROVER: u32 = 15;
    pub const SC_RA_VERIFIER: u32 = 16;
    pub const SC_RE_RA: u32 = 17;
    pub const SC_DATA: u32 = 18;
    pub const SC_ACK: u32 = 19;
    pub const HANDSHAKE_TIMEOUT: u32 = 20;
    pub const DAT_TIMEOUT: u32 = 21;
    pub const RA_TIMEOUT: u32 = 22;
    pub const ACK_TIMEOUT: u32 = 23;
}

/// An event. A field that its code does not carry is not read.
#[derive(Clone, Copy, Debug, Default, PartialEq, Eq)]
pub struct Event {
    pub code: u32,
    pub tag: u32,
    /// Event 20's timer: 0 H, 1 HP, 2 HV.
    pub timer: u32,
    pub bit: u32,
    pub verdict: bool,
    /// By how many seconds the token is "treated as spent a little early".
    pub margin: u32,
    pub expiry: i64,
    pub now: i64,
}

/// "Events 4 to 9 and 20 to 23 carry a tag."
pub(crate) fn carries_tag(code: u32) -> bool {
    matches!(code, 4..=9 | 20..=23)
}

/// "18 and 19 a bit."
pub(crate) fn carries_bit(code: u32) -> bool {
    matches!(code, 18 | 19)
}

/// "2, 6, 9, 15, 16, 18 a payload."
pub(crate) fn carries_payload(code: u32) -> bool {
    matches!(code, 2 | 6 | 9 | 15 | 16 | 18)
}

/// "11 and 13 the host's verdict on the token, its expiry and the time now", and
/// a margin, "given with events 11 and 13".
pub fn carries_token(code: u32) -> bool {
    matches!(code, 11 | 13)
}

/// Everything a call gives besides the record and the cache.
#[derive(Clone, Copy, Debug, Default, PartialEq, Eq)]
pub struct Call<'a> {
    pub event: Event,
    pub payload: &'a [u8],
    pub lists: Lists<'a>,
}

impl Call<'_> {
    /// What is left of the token of an event 11 or 13; 0 if its margin is refused.
    pub(crate) fn seconds_left(&self) -> i64 {
        let event = &self.event;
        token::seconds_left(event.expiry, event.now, event.margin).unwrap_or(0)
    }

    /// Whether the token of an event 11 or 13 is good.
    pub(crate) fn good_token(&self) -> bool {
        token::is_good(self.event.verdict, self.seconds_left())
    }

    /// Whether an event 11 opens: "the token is good and both suites are found".
    pub(crate) fn good_hello(&self) -> bool {
        let suites = self.lists.found();
        self.good_token() && suites.verifier.is_some() && suites.prover.is_some()
    }
}
