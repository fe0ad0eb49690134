//! Messages as the peer sends them.

use menhotrac::{Bit, Event};

const HELLO: u8 = 1;
const CLOSE: u8 = 2;
const DAT_EXPIRED: u8 = 3;
const DAT: u8 = 4;
const RE_RA: u8 = 5;
const RA_PROVER: u8 = 6;
const RA_VERIFIER: u8 = 7;
const DATA: u8 = 8;
const ACK: u8 = 9;

/// The bytes in every HELLO and DAT.
pub const TOKEN_BYTES: &[u8] = b"token";

fn varint(mut value: usize) -> Vec<u8> {
    let mut bytes = Vec::new();
    while value >= 0x80 {
        bytes.push(value as u8 | 0x80);
        value >>= 7;
    }
    bytes.push(value as u8);
    bytes
}

fn delimited(field: u8, content: &[u8]) -> Vec<u8> {
    [&[field << 3 | 2], &varint(content.len())[..], content].concat()
}

fn bit_field(field: u8, bit: Bit) -> [u8; 2] {
    [field << 3, bit.number() as u8]
}

fn list(field: u8, suites: &[u32]) -> Vec<u8> {
    let entries = suites.iter().map(|&suite| varint(suite as usize));
    delimited(field, &entries.collect::<Vec<_>>().concat())
}

fn part(message: u8, payload: &[u8]) -> Vec<u8> {
    delimited(message, &delimited(1, payload))
}

/// The message that an event says has come; none if it is no event of the channel to the peer.
pub fn message(event: Event) -> Option<Vec<u8>> {
    Some(match event {
        Event::ScHello { lists, .. } => {
            let token = delimited(1, TOKEN_BYTES);
            let provers = list(2, lists.peer_provers);
            let verifiers = list(3, lists.peer_verifiers);
            delimited(HELLO, &[token, provers, verifiers].concat())
        }
        Event::ScClose => delimited(CLOSE, &[]),
        Event::ScDatExpired => delimited(DAT_EXPIRED, &[]),
        Event::ScDat(_) => part(DAT, TOKEN_BYTES),
        Event::ScReRa => delimited(RE_RA, &[]),
        Event::ScRaProver(payload) => part(RA_PROVER, payload),
        Event::ScRaVerifier(payload) => part(RA_VERIFIER, payload),
        Event::ScData { bit, payload } => {
            let fields = [&delimited(1, payload)[..], &bit_field(2, bit)].concat();
            delimited(DATA, &fields)
        }
        Event::ScAck(bit) => delimited(ACK, &bit_field(1, bit)),
        _ => return None,
    })
}
