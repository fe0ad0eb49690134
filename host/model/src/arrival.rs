//! A message that has come, as a call of the step.

use crate::call::{code, Call, Event};
use crate::suites::Lists;
use crate::wire::Message;

/// What the host gives with a message: what it says of the token, and its own
/// suite lists.
#[derive(Clone, Copy, Debug, Default, PartialEq, Eq)]
pub struct Given<'a> {
    pub verdict: bool,
    pub margin: u32,
    pub expiry: i64,
    pub now: i64,
    pub our_verifiers: &'a [u32],
    pub our_provers: &'a [u32],
}

/// The call that a message is. A token or payload is the call's payload.
pub fn call_of<'a>(message: &'a Message<'a>, given: &Given<'a>) -> Call<'a> {
    let mut call = Call {
        event: Event {
            code: code_of(message),
            bit: message.bit(),
            verdict: given.verdict,
            margin: given.margin,
            expiry: given.expiry,
            now: given.now,
            ..Event::default()
        },
        payload: message.part().unwrap_or(&[]),
        lists: Lists {
            our_verifiers: given.our_verifiers,
            our_provers: given.our_provers,
            ..Lists::default()
        },
    };
    if let Message::Hello {
        provers, verifiers, ..
    } = message
    {
        call.lists.peer_provers = provers.list();
        call.lists.peer_verifiers = verifiers.list();
    }
    call
}

fn code_of(message: &Message) -> u32 {
    match message {
        Message::Hello { .. } => code::SC_HELLO,
        Message::Close => code::SC_CLOSE,
        Message::DatExpired => code::SC_DAT_EXPIRED,
        Message::Dat(_) => code::SC_DAT,
        Message::ReRa => code::SC_RE_RA,
        Message::RaProver(_) => code::SC_RA_PROVER,
        Message::RaVerifier(_) => code::SC_RA_VERIFIER,
        Message::Data { .. } => code::SC_DATA,
        Message::Ack { .. } => code::SC_ACK,
    }
}
