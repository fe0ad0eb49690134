//! The plain reader on the stored vectors, and where the parts lie.

use model::wire::{read, Message, Suites};
use std::collections::BTreeSet;
use vectors::Vector;

/// What was read, as vectors say it; the refusal's number alone if refused.
fn read_as_vector(name: &str, bytes: &[u8]) -> Vector {
    let mut vector = Vector {
        name: name.into(),
        bytes: bytes.into(),
        ..Vector::default()
    };
    let message = match read(bytes) {
        Ok(message) => message,
        Err(fault) => {
            vector.number = fault.number();
            return vector;
        }
    };
    vector.number = message.number();
    match message {
        Message::Hello {
            token,
            provers,
            verifiers,
        } => {
            vector.part = token.into();
            vector.provers = entries(&provers);
            vector.verifiers = entries(&verifiers);
        }
        Message::Dat(part) | Message::RaProver(part) | Message::RaVerifier(part) => {
            vector.part = part.into();
        }
        Message::Data { payload, bit } => (vector.part, vector.bit) = (payload.into(), bit),
        Message::Ack { bit } => vector.bit = bit,
        Message::Close | Message::DatExpired | Message::ReRa => {}
    }
    vector
}

/// The entries of a list; behind them there have to be zeros.
fn entries(suites: &Suites) -> Vec<u32> {
    let (entries, rest) = suites.entries.split_at(suites.count);
    assert!(rest.iter().all(|&entry| entry == 0));
    entries.into()
}

#[test]
fn reads_the_stored_vectors() {
    let mut numbers = BTreeSet::new();
    for vector in vectors::all() {
        let came = read_as_vector(&vector.name, &vector.bytes);
        assert_eq!(came, vector, "{}", vector.name);
        numbers.insert(vector.number);
    }
    assert!(numbers.into_iter().eq((1..=9).chain(21..=25)));
}

/// Every proper beginning of a message lacks something.
#[test]
fn refuses_what_is_cut_off() {
    for vector in vectors::all().iter().filter(|vector| vector.number <= 9) {
        for len in 1..vector.bytes.len() {
            let number = read(&vector.bytes[..len]).map_err(|fault| fault.number());
            assert_eq!(number, Err(21), "{} of {}", len, vector.name);
        }
    }
}

#[test]
fn refuses_what_goes_on() {
    for vector in vectors::all().iter().filter(|vector| vector.number <= 9) {
        for byte in [0x00, 0x0a, 0x80, 0xff] {
            let longer = [&vector.bytes[..], &[byte]].concat();
            let number = read(&longer).map_err(|fault| fault.number());
            assert_eq!(number, Err(22), "{} and {byte:#x}", vector.name);
        }
    }
}

/// Where a part begins, and its length.
fn place(bytes: &[u8]) -> (usize, usize) {
    let part = match read(bytes) {
        Ok(Message::Hello { token, .. }) => token,
        Ok(Message::Dat(part) | Message::RaProver(part) | Message::RaVerifier(part)) => part,
        Ok(Message::Data { payload, .. }) => payload,
        other => panic!("a message with a part was expected: {other:?}"),
    };
    (part.as_ptr() as usize - bytes.as_ptr() as usize, part.len())
}

#[test]
fn parts_lie_in_the_bytes() {
    assert_eq!(place(&[0x22, 3, 0x0a, 1, b'x']), (4, 1));
    assert_eq!(place(&[0x42, 5, 0x10, 1, 0x0a, 1, b'x']), (6, 1));
    assert_eq!(place(&[0x0a, 4, 0x0a, 0x81, 0, b'x']), (5, 1));
}

#[test]
fn empty_parts_lie_where_they_are_named() {
    assert_eq!(place(&[0x22, 2, 0x0a, 0]), (4, 0));
    assert_eq!(place(&[0x0a, 4, 0x0a, 0, 0x12, 0]), (4, 0));
}

#[test]
fn absent_parts_lie_at_the_start() {
    for message in [0x0a, 0x22, 0x32, 0x3a, 0x42] {
        assert_eq!(place(&[message, 0]), (0, 0));
    }
    assert_eq!(place(&[0x42, 2, 0x10, 1]), (0, 0));
}
