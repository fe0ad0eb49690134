//! What was seen, and what has to be seen.

use crate::arguments::Arguments;
use compare::faults::{FAULTS, PAIRS};
use compare::outcome::Outcome;
use compare::seen::{pairs, seen, size, summed, tally};
use compare::spoilt::{self, Spoil};
use menhotrac::raw::{HANDLED, IGNORED, WRONG_VERDICT};
use model::{fault, transitions, Record};
use std::collections::{BTreeMap, BTreeSet};

/// How many transitions can occur from fresh.
const TRANSITIONS: usize = 94;

/// What the calls of a thread, or of all, have shown.
#[derive(Clone, Debug, Default)]
pub struct Coverage {
    asked_alone: u64,
    answers: BTreeMap<u32, u64>,
    transitions: BTreeSet<(u32, u32, u32)>,
    pairs: BTreeSet<(u32, u32)>,
    spoils: BTreeSet<Spoil>,
}

impl Coverage {
    /// Notes a step's answer and, if it was refused, all faults it had.
    pub fn note_call(&mut self, record: &Record, arguments: &Arguments, outcome: &Outcome) {
        *self.answers.entry(outcome.answer).or_default() += 1;
        if !is_refusal(outcome.answer) {
            return;
        }
        let (call, edition) = (arguments.call(), arguments.edition);
        let present = |&number: &u32| match number {
            WRONG_VERDICT => arguments.wrong_verdict(),
            _ => fault(number, edition, record, &call, arguments.cache_len),
        };
        let faults: Vec<u32> = FAULTS.into_iter().filter(present).collect();
        self.pairs.extend(pairs(&faults));
    }

    pub fn note_transition(&mut self, state: u32, event: u32, next: u32) {
        self.transitions.insert((state, event, next));
    }

    pub fn note_spoil(&mut self, spoil: Spoil) {
        self.spoils.insert(spoil);
    }

    pub fn note_asked_alone(&mut self) {
        self.asked_alone += 1;
    }

    fn counts(&self) -> String {
        tally(&self.answers) + &format!("asked alone {}\n", self.asked_alone)
    }
}

impl compare::seen::Coverage for Coverage {
    fn add(&mut self, other: Coverage) {
        self.asked_alone += other.asked_alone;
        for (answer, count) in other.answers {
            *self.answers.entry(answer).or_default() += count;
        }
        self.transitions.extend(other.transitions);
        self.pairs.extend(other.pairs);
        self.spoils.extend(other.spoils);
    }

    fn summary(&self) -> (String, bool) {
        let possible: BTreeSet<_> = transitions().into_iter().collect();
        let spoils = spoilt::all().into_iter().collect();
        let answers = self.answers.keys().copied();
        let refusals = answers.filter(|&answer| is_refusal(answer)).collect();
        summed(&[
            (self.counts(), true),
            size("transitions of the table", possible.len(), TRANSITIONS),
            seen("transitions", &self.transitions, possible),
            seen("refusals", &refusals, FAULTS.into()),
            seen("pairs of faults", &self.pairs, PAIRS.into()),
            seen("spoilt clauses", &self.spoils, spoils),
        ])
    }
}

fn is_refusal(answer: u32) -> bool {
    ![HANDLED, IGNORED].contains(&answer)
}
