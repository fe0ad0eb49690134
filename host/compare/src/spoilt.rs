//! Records that are well formed but for one clause of the mended list.

use crate::well_formed::{self, tag_on, Tag, TAGS};
use model::random::Random;
use model::{Record, MOST_BYTES};

/// A way to break one clause, and only that.
#[derive(Clone, Copy, Debug, PartialEq, Eq, PartialOrd, Ord)]
pub enum Spoil {
    StateAboveNine,
    FlagAboveOne,
    NextSendBitAboveOne,
    ExpectedBitAboveOne,
    FlagSet,
    FlagNotSet,
    NextSendBitSet,
    ExpectedBitSet,
    LengthAboveMost,
    LengthWithoutFlag,
    NumberInStateZero,
    NumberBelowTags,
    TagAboveNumber(Tag),
    TagOff(Tag),
    TagOn(Tag),
}

const PLAIN: [Spoil; 12] = [
    Spoil::StateAboveNine,
    Spoil::FlagAboveOne,
    Spoil::NextSendBitAboveOne,
    Spoil::ExpectedBitAboveOne,
    Spoil::FlagSet,
    Spoil::FlagNotSet,
    Spoil::NextSendBitSet,
    Spoil::ExpectedBitSet,
    Spoil::LengthAboveMost,
    Spoil::LengthWithoutFlag,
    Spoil::NumberInStateZero,
    Spoil::NumberBelowTags,
];

/// Every way there is; the tags' clauses once for each tag.
pub fn all() -> Vec<Spoil> {
    let of_tag = |tag| {
        [
            Spoil::TagAboveNumber(tag),
            Spoil::TagOff(tag),
            Spoil::TagOn(tag),
        ]
    };
    PLAIN
        .into_iter()
        .chain(TAGS.into_iter().flat_map(of_tag))
        .collect()
}

impl Spoil {
    /// States in which this breaks no other clause.
    fn states(self) -> Vec<u32> {
        match self {
            Spoil::StateAboveNine => vec![9],
            Spoil::FlagAboveOne => (2..=6).collect(),
            Spoil::NextSendBitAboveOne | Spoil::ExpectedBitAboveOne => (2..=8).collect(),
            Spoil::FlagSet | Spoil::LengthWithoutFlag => vec![0, 1, 7, 9],
            Spoil::FlagNotSet | Spoil::LengthAboveMost => vec![8],
            Spoil::NextSendBitSet | Spoil::ExpectedBitSet => vec![0, 1, 9],
            Spoil::NumberInStateZero => vec![0],
            Spoil::NumberBelowTags => (1..=8).collect(),
            Spoil::TagAboveNumber(tag) | Spoil::TagOff(tag) => tag.on().to_vec(),
            Spoil::TagOn(tag) => {
                let off = |state: &u32| !tag.on().contains(state);
                (1..=9).filter(off).collect()
            }
        }
    }

    /// A random record with this clause broken.
    pub fn record(self, random: &mut Random) -> Record {
        let most = match self {
            Spoil::TagAboveNumber(_) => u32::MAX - 1,
            _ => u32::MAX,
        };
        let state = random.pick(&self.states());
        let mut record = well_formed::record(random, state, most);
        self.apply(&mut record, random);
        record
    }

    fn apply(self, record: &mut Record, random: &mut Random) {
        match self {
            Spoil::StateAboveNine => record.state = random.at_least(10),
            Spoil::FlagAboveOne => record.ack_flag = random.at_least(2),
            Spoil::NextSendBitAboveOne => record.next_send_bit = random.at_least(2),
            Spoil::ExpectedBitAboveOne => record.expected_bit = random.at_least(2),
            Spoil::FlagSet => record.ack_flag = 1,
            Spoil::FlagNotSet => (record.ack_flag, record.cached_len) = (0, 0),
            Spoil::NextSendBitSet => record.next_send_bit = 1,
            Spoil::ExpectedBitSet => record.expected_bit = 1,
            Spoil::LengthAboveMost => record.cached_len = random.at_least(MOST_BYTES + 1),
            Spoil::LengthWithoutFlag => record.cached_len = 1 + random.below(MOST_BYTES),
            Spoil::NumberInStateZero => record.number = random.at_least(1),
            Spoil::NumberBelowTags => record.number = 0,
            Spoil::TagAboveNumber(tag) => *tag.of(record) = random.at_least(record.number + 1),
            Spoil::TagOff(tag) => *tag.of(record) = 0,
            Spoil::TagOn(tag) => {
                record.number = record.number.max(1);
                *tag.of(record) = tag_on(random, record.number);
            }
        }
    }
}
