//! The calls that messages are.

use model::arrival::{call_of, Given};
use model::wire::read;
use model::{Call, Event, Lists};

const GIVEN: Given = Given {
    verdict: true,
    margin: 10,
    expiry: 1_060,
    now: 1_000,
    our_verifiers: &[7, 3],
    our_provers: &[3, 7],
};

/// Checks the call that bytes are: its code, bit, payload and the peer's provers
/// and verifiers.
fn is(bytes: &[u8], code: u32, bit: u32, payload: &[u8], peer: [&[u32]; 2]) {
    let event = Event {
        code,
        bit,
        verdict: true,
        margin: 10,
        expiry: 1_060,
        now: 1_000,
        ..Event::default()
    };
    let [peer_provers, peer_verifiers] = peer;
    let lists = Lists {
        our_verifiers: &[7, 3],
        peer_provers,
        peer_verifiers,
        our_provers: &[3, 7],
    };
    let call = Call {
        event,
        payload,
        lists,
    };
    let message = read(bytes).expect("a message");
    assert_eq!(call_of(&message, &GIVEN), call, "{bytes:02x?}");
}

#[test]
fn each_message() {
    let hello = b"\x0a\x0b\x0a\x01t\x12\x02\x03\x07\x1a\x02\x05\x06";
    is(hello, 11, 0, b"t", [&[3, 7], &[5, 6]]);
    is(b"\x12\x00", 12, 0, b"", [&[], &[]]);
    is(b"\x1a\x00", 14, 0, b"", [&[], &[]]);
    is(b"\x22\x03\x0a\x01t", 13, 0, b"t", [&[], &[]]);
    is(b"\x2a\x00", 17, 0, b"", [&[], &[]]);
    is(b"\x32\x03\x0a\x01p", 15, 0, b"p", [&[], &[]]);
    is(b"\x3a\x03\x0a\x01v", 16, 0, b"v", [&[], &[]]);
    is(b"\x42\x05\x0a\x01d\x10\x01", 18, 1, b"d", [&[], &[]]);
    is(b"\x4a\x02\x08\x01", 19, 1, b"", [&[], &[]]);
}
