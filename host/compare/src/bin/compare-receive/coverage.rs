//! What was seen, and what has to be seen.

use crate::arrival::Arrival;
use crate::trial::Read;
use compare::faults::{of_message, FAULTS, PAIRS};
use compare::outcome::Outcome;
use compare::seen::{pairs, seen, size, summed, tally};
use compare::spoilt::{self, Spoil};
use menhotrac::raw::{HANDLED, IGNORED, WRONG_VERDICT};
use model::{transitions, Call};
use std::collections::{BTreeMap, BTreeSet};
use std::ops::RangeInclusive;

/// The codes of the events that are messages.
const MESSAGES: RangeInclusive<u32> = 11..=19;

/// How many transitions messages make.
const TRANSITIONS: usize = 41;

/// The refusals of the reader.
const READING: RangeInclusive<u32> = 21..=25;

/// The faults that are there whatever the message is.
const HIDDEN: [u32; 2] = [5, 7];

/// All answers.
fn answers() -> BTreeSet<u32> {
    let faults = FAULTS.into_iter().filter(|&fault| of_message(fault));
    READING.chain([HANDLED, IGNORED]).chain(faults).collect()
}

/// Every pair of faults that one message can have, and of a refusal of the reader
/// with a fault that is there whatever the message is.
fn all_pairs() -> BTreeSet<(u32, u32)> {
    let of_step = PAIRS.into_iter().filter(|&(lower, _)| of_message(lower));
    let hidden = READING.flat_map(|refusal| HIDDEN.map(|fault| (refusal, fault)));
    of_step.chain(hidden).collect()
}

/// What the messages of a thread, or of all, have shown.
#[derive(Clone, Debug, Default)]
pub struct Coverage {
    answers: BTreeMap<u32, u64>,
    transitions: BTreeSet<(u32, u32, u32)>,
    pairs: BTreeSet<(u32, u32)>,
    spoils: BTreeSet<Spoil>,
}

impl Coverage {
    /// Notes the answer, and what it was given for.
    pub fn note(&mut self, arrival: &Arrival, read: &Read, outcome: &Outcome) {
        *self.answers.entry(outcome.answer).or_default() += 1;
        match (read, outcome.answer) {
            (Ok(message), HANDLED) => {
                let (before, after) = (arrival.record.state, outcome.connection.state);
                let code = arrival.call(message).event.code;
                self.transitions.insert((before, code, after));
            }
            (_, HANDLED | IGNORED) => {}
            (Ok(message), _) => self.note_faults(arrival, &arrival.call(message)),
            (Err(_), number) => self.note_hidden(arrival, number),
        }
    }

    pub fn note_spoil(&mut self, spoil: Spoil) {
        self.spoils.insert(spoil);
    }

    /// Notes all faults of a message that was refused.
    fn note_faults(&mut self, arrival: &Arrival, call: &Call) {
        let present = |&number: &u32| match number {
            WRONG_VERDICT => arrival.wrong_verdict(call),
            _ => arrival.has_fault(number, call),
        };
        let faults: Vec<u32> = FAULTS.into_iter().filter(present).collect();
        self.pairs.extend(pairs(&faults));
    }

    /// Notes the faults that the reader's refusal hides.
    fn note_hidden(&mut self, arrival: &Arrival, refusal: u32) {
        let call = Call::default();
        let present = |number: &u32| arrival.has_fault(*number, &call);
        let hidden = HIDDEN.into_iter().filter(present);
        self.pairs.extend(hidden.map(|number| (refusal, number)));
    }
}

impl compare::seen::Coverage for Coverage {
    fn add(&mut self, other: Coverage) {
        for (answer, count) in other.answers {
            *self.answers.entry(answer).or_default() += count;
        }
        self.transitions.extend(other.transitions);
        self.pairs.extend(other.pairs);
        self.spoils.extend(other.spoils);
    }

    fn summary(&self) -> (String, bool) {
        let by_message = |(_, event, _): &(u32, u32, u32)| MESSAGES.contains(event);
        let possible: BTreeSet<_> = transitions().into_iter().filter(by_message).collect();
        let given = self.answers.keys().copied().collect();
        let spoils = spoilt::all().into_iter().collect();
        summed(&[
            (tally(&self.answers), true),
            size("transitions by messages", possible.len(), TRANSITIONS),
            seen("answers", &given, answers()),
            seen("transitions by messages", &self.transitions, possible),
            seen("pairs of faults", &self.pairs, all_pairs()),
            seen("spoilt clauses", &self.spoils, spoils),
        ])
    }
}
