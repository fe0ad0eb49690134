//! What a row asks.

use crate::bytes::bytes;
use crate::items::{fixed, groups, list, number, signed};
use model::{numbers, Event, Lists, Record};

pub enum Row {
    Seconds { expiry: i64, now: i64, margin: u32 },
    Suites(SuiteLists),
    Message(Vec<u8>),
    Step(Box<Step>),
}

pub struct Step {
    pub record: Record,
    pub event: Event,
    /// The event's verdict as it was given.
    pub verdict: u32,
    pub payload: Vec<u8>,
    pub cache: Vec<u8>,
    pub lists: SuiteLists,
}

/// The four lists of a hello, in the order of the fields of [`Lists`].
pub struct SuiteLists([Vec<u32>; 4]);

impl Row {
    /// The row on a line; none if it cannot be understood.
    pub fn read(line: &[u8]) -> Option<Row> {
        let end = line.iter().position(|&byte| byte == b' ');
        let (word, rest) = line.split_at(end.unwrap_or(line.len()));
        match word {
            b"seconds" => seconds(groups(rest)?),
            b"suites" => SuiteLists::read(groups(rest)?).map(Row::Suites),
            b"message" => message(groups(rest)?),
            b"step" => step(groups(rest)?),
            _ => None,
        }
    }
}

fn seconds([times]: [&[u8]; 1]) -> Option<Row> {
    let [expiry, now, margin] = fixed(times)?;
    Some(Row::Seconds {
        expiry: signed(expiry)?,
        now: signed(now)?,
        margin: number(margin)?,
    })
}

fn message([group]: [&[u8]; 1]) -> Option<Row> {
    bytes(group).map(Row::Message)
}

fn step(groups: [&[u8]; 8]) -> Option<Row> {
    let [record, event, payload, cache, lists @ ..] = groups;
    let (event, verdict) = read_event(event)?;
    Some(Row::Step(Box::new(Step {
        record: numbers::record(list(record)?.try_into().ok()?),
        event,
        verdict,
        payload: bytes(payload)?,
        cache: bytes(cache)?,
        lists: SuiteLists::read(lists)?,
    })))
}

/// An event, and its verdict as it was given.
fn read_event(group: &[u8]) -> Option<(Event, u32)> {
    let [code, tag, timer, bit, verdict, margin, expiry, now] = fixed(group)?;
    let verdict = number(verdict)?;
    let numbers = [
        number(code)?,
        number(tag)?,
        number(timer)?,
        number(bit)?,
        verdict,
        number(margin)?,
    ];
    let times = [signed(expiry)?, signed(now)?];
    Some((numbers::event(numbers, times), verdict))
}

impl SuiteLists {
    fn read(groups: [&[u8]; 4]) -> Option<SuiteLists> {
        let [our_verifiers, peer_provers, peer_verifiers, our_provers] = groups.map(list);
        Some(SuiteLists([
            our_verifiers?,
            peer_provers?,
            peer_verifiers?,
            our_provers?,
        ]))
    }

    pub fn lists(&self) -> Lists<'_> {
        let [our_verifiers, peer_provers, peer_verifiers, our_provers] = &self.0;
        Lists {
            our_verifiers,
            peer_provers,
            peer_verifiers,
            our_provers,
        }
    }
}
