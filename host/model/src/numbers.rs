//! What the interface for C makes of the model's values: numbers, in the order of
//! the structs of `host/c/menhotrac.h`, and a refusal of its own.

use crate::call::{carries_token, Call, Event};
use crate::edition::Edition;
use crate::orders::Sheet;
use crate::record::Record;
use crate::refusal::refusal;
use crate::step::{self, Answer};
use crate::suites::{choose, Lists};
use crate::token::seconds_left;
use crate::wire::{Fault, Message};

/// The answers that are no refusal.
const HANDLED: u32 = 0;
const IGNORED: u32 = 100;

/// The refusal of a verdict that is neither 0 nor 1.
const WRONG_VERDICT: u32 = 41;

/// In the place of a refusal, where something is asked alone.
const NOT_REFUSED: u32 = 0;

const YES: u32 = 1;

/// The numbers of `menhotrac_connection`.
pub fn connection(record: &Record) -> [u32; 12] {
    [
        record.state,
        record.ack_flag,
        record.next_send_bit,
        record.expected_bit,
        record.cached_len,
        record.number,
        record.h,
        record.prover,
        record.verifier,
        record.dat,
        record.ra,
        record.ack,
    ]
}

/// The record with these numbers.
pub fn record(connection: [u32; 12]) -> Record {
    let [state, ack_flag, next_send_bit, expected_bit, cached_len, number, tags @ ..] = connection;
    let [h, prover, verifier, dat, ra, ack] = tags;
    Record {
        state,
        ack_flag,
        next_send_bit,
        expected_bit,
        cached_len,
        number,
        h,
        prover,
        verifier,
        dat,
        ra,
        ack,
    }
}

/// The event with the numbers of `menhotrac_event`: those of 32 bits, and those
/// of 64. A verdict that is wrong counts as no.
pub fn event(numbers: [u32; 6], times: [i64; 2]) -> Event {
    let [code, tag, timer, bit, verdict, margin] = numbers;
    let [expiry, now] = times;
    Event {
        code,
        tag,
        timer,
        bit,
        verdict: verdict == YES,
        margin,
        expiry,
        now,
    }
}

/// The numbers of `menhotrac_actions`.
pub fn actions(sheet: &Sheet) -> [u32; 16] {
    [
        sheet.message,
        sheet.prover,
        sheet.verifier,
        sheet.h,
        sheet.hp,
        sheet.hv,
        sheet.dat,
        sheet.ra,
        sheet.ack,
        sheet.dat_seconds,
        sheet.bit,
        sheet.hand_up.into(),
        sheet.verifier_suite,
        sheet.prover_suite,
        sheet.slice,
        sheet.len,
    ]
}

pub fn answer(answer: Answer) -> u32 {
    match answer {
        Answer::Handled => HANDLED,
        Answer::Ignored => IGNORED,
        Answer::Refused(number) => number,
    }
}

/// The answer with this number.
pub fn answer_of(number: u32) -> Answer {
    match number {
        HANDLED => Answer::Handled,
        IGNORED => Answer::Ignored,
        _ => Answer::Refused(number),
    }
}

/// Whether an event's verdict is neither 0 nor 1. One that carries no token has
/// none.
pub fn wrong_verdict(code: u32, verdict: u32) -> bool {
    carries_token(code) && verdict > YES
}

/// The step of a host that gives the event's verdict as this number. A wrong one
/// is refused where the step refuses nothing.
pub fn step(
    edition: Edition,
    record: &Record,
    call: &Call,
    verdict: u32,
    cache: &mut [u8],
) -> (u32, Record, Sheet) {
    let wrong = wrong_verdict(call.event.code, verdict);
    if wrong && refusal(edition, record, call, cache.len()).is_none() {
        return (WRONG_VERDICT, *record, Sheet::default());
    }
    let (given, after, sheet) = step::step(edition, record, call, cache);
    (answer(given), after, sheet)
}

/// The refusal of the seconds left asked alone, and the seconds, 0 if refused.
pub fn seconds(expiry: i64, now: i64, margin: u32) -> (u32, i64) {
    match seconds_left(expiry, now, margin) {
        Ok(seconds) => (NOT_REFUSED, seconds),
        Err(refusal) => (refusal, 0),
    }
}

/// The refusal of the choice asked alone, and the numbers of `menhotrac_choice`.
pub fn choice(lists: &Lists) -> (u32, [u32; 4]) {
    let suites = match choose(lists) {
        Ok(suites) => suites,
        Err(refusal) => return (refusal, [0; 4]),
    };
    let found = |suite: Option<u32>| suite.map_or((0, 0), |number| (1, number));
    let (verifier_found, verifier) = found(suites.verifier);
    let (prover_found, prover) = found(suites.prover);
    let chosen = [verifier_found, verifier, prover_found, prover];
    (NOT_REFUSED, chosen)
}

/// The numbers of `menhotrac_message` for what was read from the bytes: those of
/// 32 bits, and those of 64. The place of a part is told by addresses, since an
/// empty one has a place too.
pub fn message(bytes: &[u8], read: &Result<Message, Fault>) -> ([u32; 3], [usize; 4]) {
    let message = match read {
        Ok(message) => message,
        Err(fault) => return ([fault.number(), 0, 0], [0; 4]),
    };
    let [provers, verifiers] = message.suites().map(|suites| suites.count);
    let lies = |part: &[u8]| [part.as_ptr() as usize - bytes.as_ptr() as usize, part.len()];
    let [place, size] = message.part().map_or([0, 0], lies);
    (
        [NOT_REFUSED, message.number(), message.bit()],
        [provers, verifiers, place, size],
    )
}
