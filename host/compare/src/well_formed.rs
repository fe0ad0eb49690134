//! Random well-formed records by the mended list, also ones that no run reaches.

use model::random::Random;
use model::{Record, MOST_BYTES};

/// The record's six tags.
#[derive(Clone, Copy, Debug, PartialEq, Eq, PartialOrd, Ord)]
pub enum Tag {
    H,
    Prover,
    Verifier,
    Dat,
    Ra,
    Ack,
}

pub const TAGS: [Tag; 6] = [
    Tag::H,
    Tag::Prover,
    Tag::Verifier,
    Tag::Dat,
    Tag::Ra,
    Tag::Ack,
];

impl Tag {
    pub fn of(self, record: &mut Record) -> &mut u32 {
        match self {
            Tag::H => &mut record.h,
            Tag::Prover => &mut record.prover,
            Tag::Verifier => &mut record.verifier,
            Tag::Dat => &mut record.dat,
            Tag::Ra => &mut record.ra,
            Tag::Ack => &mut record.ack,
        }
    }

    /// The states in which the tag is on.
    pub fn on(self) -> &'static [u32] {
        match self {
            Tag::H => &[1, 5, 6],
            Tag::Prover => &[2, 3, 5],
            Tag::Verifier => &[2, 4],
            Tag::Dat => &[2, 3, 4, 7, 8],
            Tag::Ra => &[3, 7, 8],
            Tag::Ack => &[8],
        }
    }
}

/// A number of handled events, often at its end, never above `most`.
fn number(random: &mut Random, most: u32) -> u32 {
    let number = match random.below(10) {
        0..=2 => 1 + random.below(20),
        3 => 1,
        4..=6 => u32::MAX,
        7 => u32::MAX - 1 - random.below(3),
        _ => random.next_u32(),
    };
    number.clamp(1, most)
}

/// A tag that is on: not 0 and not above the number.
pub fn tag_on(random: &mut Random, number: u32) -> u32 {
    match random.below(4) {
        0 => 1,
        1 => number,
        _ => 1 + random.below(number),
    }
}

fn block_len(random: &mut Random) -> u32 {
    match random.below(4) {
        0 => 0,
        1 => MOST_BYTES,
        2 => random.below(9),
        _ => random.below(MOST_BYTES + 1),
    }
}

/// A well-formed record in this state, its number at most `most`, which is not 0.
pub fn record(random: &mut Random, state: u32, most: u32) -> Record {
    let mut record = Record {
        state,
        ..Record::fresh()
    };
    if state != 0 {
        record.number = number(random, most);
    }
    if state == 9 && random.chance(10) {
        record.number = 0;
    }
    if (2..=8).contains(&state) {
        record.next_send_bit = random.below(2);
        record.expected_bit = random.below(2);
    }
    if state == 8 || (2..=6).contains(&state) && random.chance(50) {
        record.ack_flag = 1;
        record.cached_len = block_len(random);
    }
    for tag in TAGS {
        if tag.on().contains(&state) {
            *tag.of(&mut record) = tag_on(random, record.number);
        }
    }
    record
}
