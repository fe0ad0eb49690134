//! What both sides are given, and the edition that the model answers by.

use crate::trial::Read;
use compare::suite_lists::SuiteLists;
use compare::{caches, tokens};
use menhotrac::raw::{OurLists, Token};
use model::arrival::{self, Given};
use model::random::Random;
use model::wire::Message;
use model::{fault, numbers, Call, Edition, Record};
use std::fmt;

pub struct Arrival<'a> {
    pub edition: Edition,
    pub record: Record,
    pub bytes: &'a [u8],
    pub token: Token,
    /// Only those of our side are given.
    suites: SuiteLists,
    pub cache_len: usize,
}

impl<'a> Arrival<'a> {
    /// Bytes with a record, the rest drawn: our lists with care only where a HELLO
    /// reads them.
    pub fn draw(
        edition: Edition,
        random: &mut Random,
        record: Record,
        bytes: &'a [u8],
        read: &Read,
    ) -> Arrival<'a> {
        let suites = match read {
            Ok(Message::Hello { .. }) => SuiteLists::draw(random),
            _ => SuiteLists::unread(random),
        };
        Arrival {
            edition,
            record,
            bytes,
            token: tokens::mostly_good(random),
            suites,
            cache_len: caches::draw_len(random),
        }
    }

    pub fn our_lists(&self) -> OurLists<'_> {
        let lists = self.suites.lists();
        OurLists {
            verifiers: lists.our_verifiers,
            provers: lists.our_provers,
        }
    }

    /// The call that the message is, as the model takes it; a verdict that is not
    /// 1 is taken for no.
    pub fn call<'b>(&'b self, message: &'b Message<'b>) -> Call<'b> {
        let OurLists { verifiers, provers } = self.our_lists();
        let given = Given {
            verdict: self.token.verdict == 1,
            margin: self.token.margin,
            expiry: self.token.expiry,
            now: self.token.now,
            our_verifiers: verifiers,
            our_provers: provers,
        };
        arrival::call_of(message, &given)
    }

    /// Whether the call has the fault of this refusal by the step.
    pub fn has_fault(&self, number: u32, call: &Call) -> bool {
        fault(number, self.edition, &self.record, call, self.cache_len)
    }

    /// The fault that only the interface for C refuses.
    pub fn wrong_verdict(&self, call: &Call) -> bool {
        numbers::wrong_verdict(call.event.code, self.token.verdict)
    }
}

/// Prints no more of the bytes than the first; the seed and the message's number
/// bring the rest back.
impl fmt::Debug for Arrival<'_> {
    fn fmt(&self, formatter: &mut fmt::Formatter) -> fmt::Result {
        let begin = &self.bytes[..self.bytes.len().min(200)];
        formatter
            .debug_struct("Arrival")
            .field("edition", &self.edition)
            .field("record", &self.record)
            .field("len", &self.bytes.len())
            .field("bytes", &format_args!("{begin:02x?}"))
            .field("token", &self.token)
            .field("our_lists", &format_args!("{:?}", self.our_lists()))
            .field("cache_len", &self.cache_len)
            .finish()
    }
}
