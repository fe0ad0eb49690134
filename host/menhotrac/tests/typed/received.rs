//! The typed messages of the peer.

use menhotrac::{raw, Bit, ReadRefusal, Received, SuiteList, MAX_LIST_LEN};
use vectors::Vector;

/// A list that no call writes unnoticed.
const MARKED: raw::SuiteEntries = [77; MAX_LIST_LEN];

#[test]
fn messages_without_a_part() {
    let cases = [
        (&b"\x12\x00"[..], Received::Close),
        (b"\x1a\x00", Received::DatExpired),
        (b"\x2a\x00", Received::ReRa),
        (b"\x4a\x00", Received::Ack(Bit::Zero)),
        (b"\x4a\x02\x08\x00", Received::Ack(Bit::Zero)),
        (b"\x4a\x02\x08\x01", Received::Ack(Bit::One)),
    ];
    for (bytes, received) in cases {
        assert_eq!(Received::read(bytes), Ok(received));
    }
}

#[test]
fn messages_with_a_part() {
    let (bit, payload) = (Bit::One, &b"block"[..]);
    let cases = [
        (&b"\x22\x07\x0a\x05block"[..], Received::Dat(payload)),
        (b"\x32\x07\x0a\x05block", Received::RaProver(payload)),
        (b"\x3a\x07\x0a\x05block", Received::RaVerifier(payload)),
        (
            b"\x42\x09\x0a\x05block\x10\x01",
            Received::Data { bit, payload },
        ),
        (
            b"\x42\x09\x10\x01\x0a\x05block",
            Received::Data { bit, payload },
        ),
    ];
    for (bytes, received) in cases {
        assert_eq!(Received::read(bytes), Ok(received));
    }
}

/// Token, provers and verifiers of a HELLO.
fn hello(bytes: &[u8]) -> (&[u8], SuiteList, SuiteList) {
    match Received::read(bytes) {
        Ok(Received::Hello {
            token,
            provers,
            verifiers,
        }) => (token, provers, verifiers),
        other => panic!("HELLO was expected: {other:?}"),
    }
}

#[test]
fn hello_with_its_lists() {
    let (token, provers, verifiers) = hello(b"\x0a\x0d\x0a\x03dat\x12\x03\x07\x80\x01\x1a\x01\x00");
    assert_eq!(token, b"dat");
    assert_eq!(*provers, [7, 128]);
    assert_eq!(*verifiers, [0]);
    assert_eq!(format!("{provers:?}"), "[7, 128]");
}

#[test]
fn bare_hello_is_empty() {
    let (token, provers, verifiers) = hello(b"\x0a\x00");
    assert!(token.is_empty() && provers.is_empty() && verifiers.is_empty());
    assert_eq!(provers, verifiers);
}

#[test]
fn full_lists() {
    let list = [9; MAX_LIST_LEN];
    let bytes = [b"\x0a\x24\x12\x10", &[9; 16][..], b"\x1a\x10", &[9; 16]].concat();
    let (_, provers, verifiers) = hello(&bytes);
    assert_eq!(*provers, list);
    assert_eq!(*verifiers, list);
}

#[test]
fn part_is_of_the_bytes() {
    let bytes = b"\x42\x09\x0a\x05block\x10\x01";
    let Ok(Received::Data { payload, .. }) = Received::read(bytes) else {
        panic!("DATA was expected");
    };
    assert_eq!(payload.as_ptr(), bytes[4..].as_ptr());
}

#[test]
fn each_refusal() {
    let seventeen = [b"\x0a\x13\x12\x11", &[1; 17][..]].concat();
    let cases = [
        (&b"\x4a\x02\x08"[..], ReadRefusal::EndsTooSoon),
        (b"", ReadRefusal::UnexpectedField),
        (b"\x12\x00\x00", ReadRefusal::UnexpectedField),
        (b"\x08\x00", ReadRefusal::WrongWireType),
        (b"\x4a\x02\x08\x02", ReadRefusal::NumberTooLarge),
        (&seventeen, ReadRefusal::TooManySuites),
    ];
    for (bytes, refusal) in cases {
        assert_eq!(Received::read(bytes), Err(refusal), "{bytes:02x?}");
    }
}

/// Checks one stored vector, typed and flat.
fn agrees(vector: &Vector) {
    let name = &vector.name;
    let (mut provers, mut verifiers) = (MARKED, MARKED);
    let flat = raw::read(&vector.bytes, &mut provers, &mut verifiers);
    let typed = Received::read(&vector.bytes);
    if flat.number != 1 {
        assert_eq!((provers, verifiers), (MARKED, MARKED), "{name}");
    }
    if flat.refusal != raw::NOT_REFUSED {
        let refusal = ReadRefusal::from_number(flat.refusal).expect("a refusal of the reader");
        assert_eq!(typed, Err(refusal), "{name}");
        return;
    }
    let bit = Bit::from_number(flat.bit).expect("0 or 1");
    let part = &vector.bytes[flat.place..][..flat.size];
    let received = match flat.number {
        1 => return agrees_on_hello(vector, part, [&provers[..], &verifiers]),
        2 => Received::Close,
        3 => Received::DatExpired,
        4 => Received::Dat(part),
        5 => Received::ReRa,
        6 => Received::RaProver(part),
        7 => Received::RaVerifier(part),
        8 => Received::Data { bit, payload: part },
        _ => Received::Ack(bit),
    };
    assert_eq!(typed, Ok(received), "{name}");
}

/// The flat lists hold the typed ones and then zeros.
fn agrees_on_hello(vector: &Vector, part: &[u8], flat: [&[u32]; 2]) {
    let (token, provers, verifiers) = hello(&vector.bytes);
    assert_eq!(token, part, "{}", vector.name);
    for (typed, flat) in [provers, verifiers].iter().zip(flat) {
        let (entries, rest) = flat.split_at(typed.len());
        assert_eq!(**typed, *entries, "{}", vector.name);
        assert!(rest.iter().all(|&entry| entry == 0), "{}", vector.name);
    }
}

#[test]
fn agrees_with_the_flat_call() {
    for vector in vectors::all() {
        agrees(&vector);
    }
}
