//! An event as the archive takes it: numbers, one payload and four lists. What an event does not carry is 0 or empty.

use crate::event::HandshakeTimer;
use crate::message::Bit;
use crate::raw;
use crate::suites::Lists;
use crate::tag::Tag;
use crate::token::Token;

pub(crate) struct Call<'a> {
    pub event: raw::Event,
    pub payload: &'a [u8],
    pub lists: Lists<'a>,
}

impl<'a> Call<'a> {
    #[inline]
    pub const fn plain(code: u32) -> Self {
        Self {
            event: raw::Event {
                code,
                tag: 0,
                timer: 0,
                bit: 0,
                verdict: 0,
                margin: 0,
                expiry: 0,
                now: 0,
            },
            payload: &[],
            lists: Lists {
                our_verifiers: &[],
                peer_provers: &[],
                peer_verifiers: &[],
                our_provers: &[],
            },
        }
    }

    #[inline]
    pub const fn tagged(code: u32, tag: Tag) -> Self {
        let mut call = Self::plain(code);
        call.event.tag = tag.0;
        call
    }

    #[inline]
    pub const fn bit(code: u32, bit: Bit) -> Self {
        let mut call = Self::plain(code);
        call.event.bit = bit.number();
        call
    }

    #[inline]
    pub const fn token(code: u32, token: Token) -> Self {
        let mut call = Self::plain(code);
        call.event.verdict = token.verdict as u32;
        call.event.margin = token.margin;
        call.event.expiry = token.expiry;
        call.event.now = token.now;
        call
    }

    #[inline]
    pub const fn with_timer(mut self, timer: HandshakeTimer) -> Self {
        self.event.timer = timer.number();
        self
    }

    #[inline]
    pub const fn with_payload(mut self, payload: &'a [u8]) -> Self {
        self.payload = payload;
        self
    }

    #[inline]
    pub const fn with_lists(mut self, lists: Lists<'a>) -> Self {
        self.lists = lists;
        self
    }
}
