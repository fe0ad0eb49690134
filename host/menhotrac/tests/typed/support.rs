//! Records and events that the tests share.

use menhotrac::{
    raw, Actions, Answer, Bit, Connection, Event, HandshakeTimer, Lists, OurLists, Tag, Token,
    CACHE_LEN, MAX_MARGIN,
};

/// The boot run's token: 60 seconds are left.
pub const TOKEN: Token = Token {
    verdict: true,
    margin: 0,
    expiry: 1_060,
    now: 1_000,
};

/// Margins that are refused.
pub const LARGE_MARGINS: [u32; 2] = [MAX_MARGIN + 1, u32::MAX];

/// The boot run's lists: our verifier's suite is 7, our prover's 3.
pub const LISTS: Lists = Lists {
    our_verifiers: &[7, 3],
    peer_provers: &[3, 7],
    peer_verifiers: &[3],
    our_provers: &[3, 7],
};

/// Those of them that are ours.
pub const OURS: OurLists = OurLists {
    verifiers: LISTS.our_verifiers,
    provers: LISTS.our_provers,
};

/// A cache in which a byte that is written or moved shows.
pub const fn patterned_cache() -> [u8; CACHE_LEN] {
    PATTERN
}

const PATTERN: [u8; CACHE_LEN] = {
    let mut bytes = [0; CACHE_LEN];
    let mut at = 0;
    while at < CACHE_LEN {
        bytes[at] = (at % 251) as u8;
        at += 1;
    }
    bytes
};

/// A well-formed record in each state: flag, length and number, then the tags of H, prover, verifier, DAT, RA and ACK,
/// which differ.
const RECORDS: [[u32; 9]; 10] = [
    [0, 0, 0, 0, 0, 0, 0, 0, 0],
    [0, 0, 9, 1, 0, 0, 0, 0, 0],
    [0, 0, 9, 0, 2, 3, 4, 0, 0],
    [0, 0, 9, 0, 2, 0, 4, 5, 0],
    [0, 0, 9, 0, 0, 3, 4, 0, 0],
    [0, 0, 9, 1, 2, 0, 0, 0, 0],
    [0, 0, 9, 1, 0, 0, 0, 0, 0],
    [0, 0, 9, 0, 0, 0, 4, 5, 0],
    [1, 5, 9, 0, 0, 0, 4, 5, 6],
    [0, 0, 9, 0, 0, 0, 0, 0, 0],
];

/// The record of a state. Its bits are 0.
pub fn record(state: usize) -> raw::Connection {
    let [awaiting_ack, cached_len, handled, h, prover, verifier, dat, ra, ack] = RECORDS[state];
    raw::Connection {
        state: state as u32,
        awaiting_ack,
        next_send_bit: 0,
        expected_bit: 0,
        cached_len,
        handled,
        h,
        prover,
        verifier,
        dat,
        ra,
        ack,
    }
}

/// The connection with that record.
pub fn in_state(state: usize) -> Connection {
    Connection::from_raw(record(state))
}

/// What the events of `every_event` carry.
#[derive(Clone, Copy)]
pub struct Carried<'a> {
    pub tag: Tag,
    pub timer: HandshakeTimer,
    pub bit: Bit,
    pub token: Token,
    pub payload: &'a [u8],
    pub lists: Lists<'a>,
}

pub const CARRIED: Carried = Carried {
    tag: Tag(1),
    timer: HandshakeTimer::H,
    bit: Bit::Zero,
    token: TOKEN,
    payload: b"block",
    lists: LISTS,
};

/// Document 01's events, by their codes.
pub fn every_event(carried: Carried) -> [Event; 24] {
    let Carried {
        tag,
        timer,
        bit,
        token,
        payload,
        lists,
    } = carried;
    [
        Event::UpperStartHandshake,
        Event::UpperClose,
        Event::UpperSendData(payload),
        Event::UpperReRa,
        Event::RaVerifierOk(tag),
        Event::RaVerifierFailed(tag),
        Event::RaVerifierMsg { tag, payload },
        Event::RaProverOk(tag),
        Event::RaProverFailed(tag),
        Event::RaProverMsg { tag, payload },
        Event::ScError,
        Event::ScHello { token, lists },
        Event::ScClose,
        Event::ScDat(token),
        Event::ScDatExpired,
        Event::ScRaProver(payload),
        Event::ScRaVerifier(payload),
        Event::ScReRa,
        Event::ScData { bit, payload },
        Event::ScAck(bit),
        Event::HandshakeTimeout { timer, tag },
        Event::DatTimeout(tag),
        Event::RaTimeout(tag),
        Event::AckTimeout(tag),
    ]
}

/// The events in which a token is judged, each with a state that handles it.
pub fn judged(token: Token) -> [(usize, Event<'static>); 3] {
    let hello = Event::ScHello {
        token,
        lists: LISTS,
    };
    let dat = Event::ScDat(token);
    [(1, hello), (5, dat), (6, dat)]
}

/// The actions of a call that must be handled.
pub fn handled(answer: Answer) -> Actions {
    match answer {
        Answer::Handled(actions) => actions,
        _ => panic!("handled was expected: {answer:?}"),
    }
}
