//! Random arguments of a call: mostly such as move the record they are given
//! with, and each of them sometimes wrong. Fields that the event does not carry
//! are drawn the same way, since nobody may read them.

use crate::arguments::Arguments;
use crate::session::Session;
use compare::suite_lists::SuiteLists;
use compare::{caches, tokens};
use menhotrac::raw;
use model::random::Random;
use model::{code, Record, MOST_BYTES};

/// Arguments for an event of this code, aimed at the record.
pub fn arguments<'a>(session: &mut Session<'a>, record: &Record, code: u32) -> Arguments<'a> {
    let timer = timer(&mut session.random, record);
    let token = tokens::mostly_good(&mut session.random);
    let event = raw::Event {
        code,
        tag: tag(&mut session.random, record, code, timer),
        timer,
        bit: bit(&mut session.random, record, code),
        verdict: token.verdict,
        margin: token.margin,
        expiry: token.expiry,
        now: token.now,
    };
    let suites = if code == code::SC_HELLO {
        SuiteLists::draw(&mut session.random)
    } else {
        SuiteLists::unread(&mut session.random)
    };
    Arguments {
        edition: session.edition,
        event,
        payload: payload(&mut session.random, session.bytes),
        suites,
        cache_len: caches::draw_len(&mut session.random),
    }
}

/// The name of an event 20's timer, mostly of one that runs.
fn timer(random: &mut Random, record: &Record) -> u32 {
    let any = random.below(3);
    match random.below(100) {
        0..=4 => random.at_least(3),
        5..=29 => any,
        _ if record.h != 0 && any == 0 => 0,
        _ if record.verifier != 0 && (any == 2 || record.prover == 0) => 2,
        _ if record.prover != 0 => 1,
        _ => 0,
    }
}

fn tag(random: &mut Random, record: &Record, code: u32, timer: u32) -> u32 {
    let live = match (code, timer) {
        (4..=6, _) | (code::HANDSHAKE_TIMEOUT, 2) => record.verifier,
        (7..=9, _) | (code::HANDSHAKE_TIMEOUT, 1) => record.prover,
        (code::DAT_TIMEOUT, _) => record.dat,
        (code::RA_TIMEOUT, _) => record.ra,
        (code::ACK_TIMEOUT, _) => record.ack,
        _ => record.h,
    };
    match random.below(100) {
        0..=4 => 0,
        5..=9 => random.below(record.number.max(1)),
        10..=11 => live.wrapping_add(1),
        12..=13 => live.wrapping_sub(1),
        14..=15 => random.next_u32(),
        16..=17 => record.number,
        _ => live,
    }
}

fn bit(random: &mut Random, record: &Record, code: u32) -> u32 {
    let right = if code == code::SC_DATA {
        record.expected_bit
    } else {
        record.next_send_bit
    };
    match random.below(100) {
        0..=4 => random.at_least(2),
        5..=24 => right ^ 1,
        _ => right,
    }
}

fn payload<'a>(random: &mut Random, bytes: &'a [u8]) -> &'a [u8] {
    let len = match random.below(100) {
        0..=9 => 0,
        10..=19 => 1,
        20..=84 => 2 + random.below(63),
        85..=88 => MOST_BYTES,
        89..=91 => MOST_BYTES + 1,
        92 => MOST_BYTES + random.below(1_000),
        _ => random.below(MOST_BYTES),
    };
    let first = random.below(bytes.len() as u32 - len);
    &bytes[first as usize..][..len as usize]
}
