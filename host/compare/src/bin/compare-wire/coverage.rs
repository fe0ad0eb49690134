//! What was seen, and what has to be seen.

use compare::reading::Reading;
use compare::seen::{seen, size, summed};
use compare::wire::written::Order;
use model::wire::{Fault, Place, What};
use std::collections::{BTreeMap, BTreeSet};

/// How many ways lead to a refusal, and how many orders of fields there are.
const WAYS: usize = 102;
const ORDERS: usize = 32;

/// A fault, and the message that it is in; 0 for the outer key and length.
type Way = (u32, Fault);

/// What can be wrong with every varint.
const VARINT: [What; 3] = [What::Cut, What::TooLong, What::TooLarge];

/// The messages that have fields, parts or bits.
const WITH_FIELDS: [u32; 6] = [1, 4, 6, 7, 8, 9];
const WITH_PART: [u32; 5] = [1, 4, 6, 7, 8];
const WITH_BIT: [u32; 2] = [8, 9];

/// What the inputs of a thread, or of all, have shown.
#[derive(Clone, Debug, Default)]
pub struct Coverage {
    messages: BTreeMap<u32, u64>,
    refusals: BTreeMap<u32, u64>,
    ways: BTreeSet<Way>,
    orders: BTreeSet<(u32, Order)>,
    /// Counts of provers and of verifiers.
    counts: [BTreeSet<usize>; 2],
}

impl Coverage {
    /// Notes bytes that both readers refused.
    pub fn note_fault(&mut self, bytes: &[u8], fault: Fault) {
        *self.refusals.entry(fault.number()).or_default() += 1;
        self.ways.insert((message_of(bytes, fault), fault));
    }

    /// Notes what both readers read.
    pub fn note_message(&mut self, reading: &Reading) {
        let message = &reading.message;
        *self.messages.entry(message.number).or_default() += 1;
        if message.number == 1 {
            self.counts[0].insert(message.provers);
            self.counts[1].insert(message.verifiers);
        }
    }

    /// Notes the order of the fields of a message that was read.
    pub fn note_order(&mut self, message: u32, order: Order) {
        self.orders.insert((message, order));
    }

    fn tally(&self) -> String {
        let messages = self.messages.iter();
        let read = messages.map(|(message, count)| format!("read message {message}: {count}\n"));
        let refusals = self.refusals.iter();
        let refused = refusals.map(|(refusal, count)| format!("refused {refusal}: {count}\n"));
        read.chain(refused).collect()
    }
}

impl compare::seen::Coverage for Coverage {
    fn add(&mut self, other: Coverage) {
        for (message, count) in other.messages {
            *self.messages.entry(message).or_default() += count;
        }
        for (refusal, count) in other.refusals {
            *self.refusals.entry(refusal).or_default() += count;
        }
        self.ways.extend(other.ways);
        self.orders.extend(other.orders);
        for (mine, others) in self.counts.iter_mut().zip(other.counts) {
            mine.extend(others);
        }
    }

    fn summary(&self) -> (String, bool) {
        let messages = self.messages.keys().copied().collect();
        let refusals = self.refusals.keys().copied().collect();
        let (ways, orders) = (ways(), orders());
        summed(&[
            (self.tally(), true),
            size("ways to a refusal", ways.len(), WAYS),
            size("orders of fields", orders.len(), ORDERS),
            seen("messages", &messages, (1..=9).collect()),
            seen("refusals", &refusals, (21..=25).collect()),
            seen("ways to a refusal", &self.ways, ways),
            seen("orders of fields", &self.orders, orders),
            seen("lengths of provers", &self.counts[0], (0..=16).collect()),
            seen("lengths of verifiers", &self.counts[1], (0..=16).collect()),
        ])
    }
}

/// The message that a fault is in.
fn message_of(bytes: &[u8], fault: Fault) -> u32 {
    if let Place::OuterKey | Place::OuterLength = fault.place {
        return 0;
    }
    // The outer key was read, so it has an end.
    let end = bytes.iter().position(|&byte| byte < 0x80).unwrap_or(0);
    let bits = bytes[..=end].iter().rev().map(|byte| byte & 0x7f);
    let key = bits.fold(0, |key: u64, bits| key << 7 | u64::from(bits));
    (key >> 3) as u32
}

/// Every fault that bytes can have.
fn ways() -> BTreeSet<Way> {
    let mut ways = BTreeSet::new();
    let mut add = |messages: &[u32], place: Place, faults: &[What]| {
        for &message in messages {
            let way = |&what| (message, Fault { place, what });
            ways.extend(faults.iter().map(way));
        }
    };
    let every = [1, 2, 3, 4, 5, 6, 7, 8, 9];
    add(&[0], Place::OuterKey, &VARINT);
    add(&[0], Place::OuterKey, &[What::NoBytes]);
    add(&[0], Place::OuterKey, &[What::Unknown, What::WireType]);
    add(&[0], Place::OuterLength, &VARINT);
    add(&[0], Place::OuterLength, &[What::PastEnd]);
    add(&every, Place::After, &[What::Trailing]);
    add(&every, Place::Key, &VARINT);
    add(&every, Place::Key, &[What::Unknown]);
    add(&WITH_FIELDS, Place::Key, &[What::Repeated, What::WireType]);
    add(&WITH_PART, Place::Length, &VARINT);
    add(&WITH_PART, Place::Length, &[What::PastEnd]);
    add(&WITH_BIT, Place::Bit, &VARINT);
    add(&WITH_BIT, Place::Bit, &[What::AboveOne]);
    add(&[1], Place::Entry, &VARINT);
    add(&[1], Place::Surplus, &VARINT);
    add(&[1], Place::Surplus, &[What::TooMany]);
    ways
}

/// Every order of some fields of a message.
fn orders() -> BTreeSet<(u32, Order)> {
    let mut orders: BTreeSet<_> = (1..=9).map(|message| (message, [0; 4])).collect();
    orders.extend([4, 6, 7, 9].map(|message| (message, [1, 0, 0, 0])));
    for (first, second) in [(1, 2), (2, 1)] {
        orders.insert((8, [first, 0, 0, 0]));
        orders.insert((8, [first, second, 0, 0]));
    }
    for (first, second, third) in [(1, 2, 3), (2, 3, 1), (3, 1, 2)] {
        orders.insert((1, [first, 0, 0, 0]));
        for (next, last) in [(second, third), (third, second)] {
            orders.insert((1, [first, next, 0, 0]));
            orders.insert((1, [first, next, last, 0]));
        }
    }
    orders
}
