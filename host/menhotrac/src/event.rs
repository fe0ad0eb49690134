//! Everything that can happen to a connection.

use crate::call::Call;
use crate::message::Bit;
use crate::numbered::numbered;
use crate::suites::Lists;
use crate::tag::Tag;
use crate::token::Token;

/// The most bytes of an event's payload.
pub const MAX_PAYLOAD_LEN: usize = 4096;

numbered! {
    /// The timer that a handshake timeout names.
    HandshakeTimer {
        /// H, of the handshake and of a token's return.
        H = 0,
        /// HP, of the prover.
        Hp = 1,
        /// HV, of the verifier.
        Hv = 2,
    }
}

/// An event, by document 01's names and in the order of its codes, with what that event carries.
///
/// "Upper" events come from the application, "Ra" events from the drivers, "Sc" events from the secure channel to the
/// peer. Reports of drivers and timeouts carry the tag of the start that they belong to: [`Actions::tag`] of the call
/// that ordered it.
///
/// [`Actions::tag`]: crate::Actions::tag
#[derive(Clone, Copy, Debug, PartialEq, Eq)]
pub enum Event<'a> {
    /// 0: the application asks for the connection.
    UpperStartHandshake,
    /// 1: the application ends the connection.
    UpperClose,
    /// 2: the application hands over a block to send.
    UpperSendData(&'a [u8]),
    /// 3: the application asks for a new attestation of the peer.
    UpperReRa,
    /// 4: the verifier is satisfied.
    RaVerifierOk(Tag),
    /// 5: the verifier has failed.
    RaVerifierFailed(Tag),
    /// 6: the verifier has a message for the peer's prover.
    RaVerifierMsg {
        /// The tag of the verifier's start.
        tag: Tag,
        /// The message.
        payload: &'a [u8],
    },
    /// 7: the prover has done its part.
    RaProverOk(Tag),
    /// 8: the prover has failed.
    RaProverFailed(Tag),
    /// 9: the prover has a message for the peer's verifier.
    RaProverMsg {
        /// The tag of the prover's start.
        tag: Tag,
        /// The message.
        payload: &'a [u8],
    },
    /// 10: the secure channel has failed.
    ScError,
    /// 11: HELLO has come.
    ScHello {
        /// The peer's token.
        token: Token,
        /// Our suite lists and the peer's.
        lists: Lists<'a>,
    },
    /// 12: CLOSE has come.
    ScClose,
    /// 13: DAT has come with the peer's token.
    ScDat(Token),
    /// 14: DAT_EXPIRED has come: the peer asks for our token.
    ScDatExpired,
    /// 15: RA_PROVER has come with a message of the peer's prover.
    ScRaProver(&'a [u8]),
    /// 16: RA_VERIFIER has come with a message of the peer's verifier.
    ScRaVerifier(&'a [u8]),
    /// 17: RE_RA has come: our prover is to attest anew.
    ScReRa,
    /// 18: DATA has come.
    ScData {
        /// The bit of the DATA.
        bit: Bit,
        /// The block.
        payload: &'a [u8],
    },
    /// 19: ACK has come with its bit.
    ScAck(Bit),
    /// 20: a handshake timer has run out.
    HandshakeTimeout {
        /// Which one.
        timer: HandshakeTimer,
        /// The tag of its start.
        tag: Tag,
    },
    /// 21: the DAT timer has run out: the peer's token is spent.
    DatTimeout(Tag),
    /// 22: the RA timer has run out: the peer is to be attested anew.
    RaTimeout(Tag),
    /// 23: the ACK timer has run out: the block is to be repeated.
    AckTimeout(Tag),
}

impl<'a> Event<'a> {
    /// Document 01's code of the event.
    #[inline]
    pub const fn code(&self) -> u32 {
        self.call().event.code
    }

    /// The arguments that the archive takes for this event.
    #[inline(always)]
    pub(crate) const fn call(&self) -> Call<'a> {
        match *self {
            Event::UpperStartHandshake => Call::plain(0),
            Event::UpperClose => Call::plain(1),
            Event::UpperSendData(payload) => Call::plain(2).with_payload(payload),
            Event::UpperReRa => Call::plain(3),
            Event::RaVerifierOk(tag) => Call::tagged(4, tag),
            Event::RaVerifierFailed(tag) => Call::tagged(5, tag),
            Event::RaVerifierMsg { tag, payload } => Call::tagged(6, tag).with_payload(payload),
            Event::RaProverOk(tag) => Call::tagged(7, tag),
            Event::RaProverFailed(tag) => Call::tagged(8, tag),
            Event::RaProverMsg { tag, payload } => Call::tagged(9, tag).with_payload(payload),
            Event::ScError => Call::plain(10),
            Event::ScHello { token, lists } => Call::token(11, token).with_lists(lists),
            Event::ScClose => Call::plain(12),
            Event::ScDat(token) => Call::token(13, token),
            Event::ScDatExpired => Call::plain(14),
            Event::ScRaProver(payload) => Call::plain(15).with_payload(payload),
            Event::ScRaVerifier(payload) => Call::plain(16).with_payload(payload),
            Event::ScReRa => Call::plain(17),
            Event::ScData { bit, payload } => Call::bit(18, bit).with_payload(payload),
            Event::ScAck(bit) => Call::bit(19, bit),
            Event::HandshakeTimeout { timer, tag } => Call::tagged(20, tag).with_timer(timer),
            Event::DatTimeout(tag) => Call::tagged(21, tag),
            Event::RaTimeout(tag) => Call::tagged(22, tag),
            Event::AckTimeout(tag) => Call::tagged(23, tag),
        }
    }
}
