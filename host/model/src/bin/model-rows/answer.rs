//! What the model says of a row.

use crate::print::{Numbers, Runs};
use crate::row::{Row, Step, SuiteLists};
use model::{numbers, part, wire, Call, Edition};

impl Row {
    pub fn answer(&self) -> String {
        match self {
            &Row::Seconds {
                expiry,
                now,
                margin,
            } => seconds(expiry, now, margin),
            Row::Suites(lists) => suites(lists),
            Row::Message(bytes) => message(bytes),
            Row::Step(row) => step(row),
        }
    }
}

fn seconds(expiry: i64, now: i64, margin: u32) -> String {
    let (refusal, seconds) = numbers::seconds(expiry, now, margin);
    format!("seconds {refusal} {seconds}")
}

fn suites(lists: &SuiteLists) -> String {
    let (refusal, chosen) = numbers::choice(&lists.lists());
    format!("suites {refusal} ;{}", Numbers(&chosen))
}

/// The two lists held zeros before, and keep them unless a HELLO was read.
fn message(bytes: &[u8]) -> String {
    let read = wire::read(bytes);
    let (first, sizes) = numbers::message(bytes, &read);
    let [provers, verifiers] = read.map(|message| message.suites()).unwrap_or_default();
    format!(
        "message{}{} ;{} ;{}",
        Numbers(&first),
        Numbers(&sizes),
        Numbers(&provers.entries),
        Numbers(&verifiers.entries)
    )
}

fn step(row: &Step) -> String {
    let call = Call {
        event: row.event,
        payload: &row.payload,
        lists: row.lists.lists(),
    };
    let mut cache = row.cache.clone();
    let (answer, record, sheet) =
        numbers::step(Edition::Mended, &row.record, &call, row.verdict, &mut cache);
    format!(
        "step {answer} ;{} ;{} ;{} ;{}",
        Numbers(&numbers::connection(&record)),
        Numbers(&numbers::actions(&sheet)),
        Runs(part(&sheet, call.payload, &cache)),
        Runs(&cache)
    )
}
