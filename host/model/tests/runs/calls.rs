//! Random calls for the runs.

use model::random::Random;
use model::{code, Call, Event, Lists, Record, MOST_MARGIN};

/// How many calls the runs of a test have together.
pub const CALLS: u32 = 400_000;

/// Events that can only lock, drawn rarely, so that runs get deep.
const LOCKING: [u32; 6] = [1, 5, 8, 10, 12, 20];

fn random_code(random: &mut Random) -> u32 {
    let any = random.below(25);
    if LOCKING.contains(&any) && random.chance(90) {
        random.pick(&[4, 7, 13])
    } else {
        any
    }
}

/// A margin that mostly leaves a token some seconds, rarely one that is refused.
fn random_margin(random: &mut Random) -> u32 {
    if random.chance(5) {
        random.at_least(MOST_MARGIN + 1)
    } else {
        random.below(30)
    }
}

/// An event for the record, mostly one that is live and has the right bit.
fn random_event(random: &mut Random, record: &Record) -> Event {
    let code = random_code(random);
    let timer = random.below(3);
    let tag = match code {
        4..=6 => record.verifier,
        7..=9 => record.prover,
        code::HANDSHAKE_TIMEOUT => [record.h, record.prover, record.verifier][timer as usize],
        code::DAT_TIMEOUT => record.dat,
        code::RA_TIMEOUT => record.ra,
        _ => record.ack,
    };
    let stale = random.chance(20);
    Event {
        code,
        tag: if stale { tag.saturating_sub(1) } else { tag },
        timer,
        bit: random.below(2),
        verdict: random.chance(90),
        margin: random_margin(random),
        expiry: i64::from(random.below(100)),
        now: i64::from(random.below(20)),
    }
}

pub fn random_call<'a>(random: &mut Random, record: &Record, bytes: &'a [u8; 8]) -> Call<'a> {
    Call {
        event: random_event(random, record),
        payload: &bytes[..random.below(9) as usize],
        lists: Lists {
            our_verifiers: &[1, 2],
            peer_provers: &[2, 1],
            peer_verifiers: random.pick(&[&[3, 4][..], &[4], &[4], &[5]]),
            our_provers: &[4],
        },
    }
}

/// The length of a call's cache, rarely too short.
pub fn cache_len(random: &mut Random) -> usize {
    if random.chance(2) {
        4_095
    } else {
        4_096
    }
}
