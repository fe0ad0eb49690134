//! What a call gives to both sides besides the record and the cache's bytes, and
//! the edition that the model answers by.

use compare::suite_lists::SuiteLists;
use menhotrac::raw;
use model::{numbers, Call, Edition};
use std::fmt;

#[derive(Clone, Copy)]
pub struct Arguments<'a> {
    pub edition: Edition,
    pub event: raw::Event,
    pub payload: &'a [u8],
    pub suites: SuiteLists,
    pub cache_len: usize,
}

impl Arguments<'_> {
    /// The call as the model takes it; a verdict that is not 1 is taken for no.
    pub fn call(&self) -> Call<'_> {
        let raw::Event {
            code,
            tag,
            timer,
            bit,
            verdict,
            margin,
            expiry,
            now,
        } = self.event;
        Call {
            event: numbers::event([code, tag, timer, bit, verdict, margin], [expiry, now]),
            payload: self.payload,
            lists: self.suites.lists(),
        }
    }

    /// The fault that only the interface for C refuses.
    pub fn wrong_verdict(&self) -> bool {
        numbers::wrong_verdict(self.event.code, self.event.verdict)
    }
}

/// Prints no more of the payload than its first bytes; the seed and the call's
/// number bring the rest back.
impl fmt::Debug for Arguments<'_> {
    fn fmt(&self, formatter: &mut fmt::Formatter) -> fmt::Result {
        let begin = &self.payload[..self.payload.len().min(16)];
        formatter
            .debug_struct("Arguments")
            .field("edition", &self.edition)
            .field("event", &self.event)
            .field("payload_len", &self.payload.len())
            .field("payload_begins", &format_args!("{begin:02x?}"))
            .field("suites", &self.suites)
            .field("cache_len", &self.cache_len)
            .finish()
    }
}
