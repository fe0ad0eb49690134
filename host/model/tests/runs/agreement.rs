//! The model's step and the model's notes, two readings of the paper, have to
//! agree, and a host that obeys the sheets has to have running just what the
//! record says.

use crate::calls::{cache_len, random_call, CALLS};
use model::random::Random;
use model::{
    code, live, message, part, step, transitions, Answer, Call, Edition, Ledger, Notes, Record,
    Running, Sheet,
};
use std::collections::BTreeSet;

/// A run from fresh, and what is kept beside its record.
#[derive(Default)]
struct Run {
    record: Record,
    notes: Notes,
    ledger: Ledger,
}

/// Where the audit finds a live event ignored, or an order or a tag that does not
/// fit the ledger.
#[derive(Debug, PartialEq, Eq, PartialOrd, Ord)]
struct Finding {
    state: u32,
    event: u32,
    ignored_live: bool,
    leak: bool,
}

fn check_notes(call: &Call, result: &(Answer, Record, Sheet), cache: &[u8], notes: &mut Notes) {
    let (answer, record, sheet) = result;
    let predicted = notes.hear(call, cache.len());
    assert_eq!(*answer, predicted.answer);
    assert_eq!(record.state, predicted.state);
    assert_eq!(record.number, predicted.number);
    let bytes = part(sheet, call.payload, cache);
    let data = (sheet.message == message::DATA).then_some((sheet.bit, bytes));
    assert_eq!(data, predicted.data);
    let ack = (sheet.message == message::ACK).then_some(sheet.bit);
    assert_eq!(ack, predicted.ack);
    assert_eq!(sheet.hand_up.then_some(bytes), predicted.delivered);
    assert!(predicted.guarded || data.is_none() && ack.is_none());
}

impl Run {
    fn audit(&mut self, call: &Call, result: &(Answer, Record, Sheet)) -> Option<Finding> {
        let (answer, after, sheet) = result;
        let obeyed = self.ledger.hear(&call.event, *answer, sheet);
        let finding = Finding {
            state: self.record.state,
            event: call.event.code,
            ignored_live: *answer == Answer::Ignored && live(&self.record, &call.event),
            leak: !obeyed || self.ledger.running != Running::recorded(after),
        };
        (finding.ignored_live || finding.leak).then_some(finding)
    }
}

/// Checks runs of an edition with the notes, and gives what the audit finds. A run
/// ends at a finding, or after it is locked.
fn findings(edition: Edition) -> BTreeSet<Finding> {
    let mut random = Random::new(1);
    let mut cache = vec![0; 4_100];
    let (mut seen, mut findings) = (BTreeSet::new(), BTreeSet::new());
    let mut run = Run::default();
    for _ in 0..CALLS {
        let bytes = random.next_u64().to_le_bytes();
        let call = random_call(&mut random, &run.record, &bytes);
        let cache = &mut cache[..cache_len(&mut random)];
        let result = step(edition, &run.record, &call, cache);
        check_notes(&call, &result, cache, &mut run.notes);
        let finding = run.audit(&call, &result);
        let (answer, after, _) = result;
        assert!(after.well_formed(edition));
        if answer == Answer::Handled {
            seen.insert((run.record.state, call.event.code, after.state));
        }
        run.record = after;
        if finding.is_some() || after.state == 9 && random.chance(25) {
            run = Run::default();
        }
        findings.extend(finding);
    }
    assert_eq!(seen, transitions().into_iter().collect());
    findings
}

#[test]
fn mended_edition_keeps_the_audit() {
    assert_eq!(findings(Edition::Mended), [].into());
}

/// The RA that 21 in 3 did not cancel runs out, and the record keeps its tag.
#[test]
fn printed_edition_leaks_ra() {
    let leaks = [5, 6].map(|state| Finding {
        state,
        event: code::RA_TIMEOUT,
        ignored_live: true,
        leak: true,
    });
    assert_eq!(findings(Edition::Printed), leaks.into());
}
