//! "Order sheet". The paper leaves the numbers in the slots free; these are the
//! product's.

use crate::call::code;
use crate::table::Row;
use crate::timers::Timer;
use crate::turn::{Change, Turn};

/// Messages to the peer.
pub mod message {
    pub const NONE: u32 = 0;
    pub const HELLO: u32 = 1;
    pub const CLOSE: u32 = 2;
    pub const DAT_EXPIRED: u32 = 3;
    pub const DAT: u32 = 4;
    pub const RE_RA: u32 = 5;
    pub const RA_PROVER: u32 = 6;
    pub const RA_VERIFIER: u32 = 7;
    pub const DATA: u32 = 8;
    pub const ACK: u32 = 9;
}

/// Orders to a driver.
pub mod driver {
    pub const NONE: u32 = 0;
    pub const START: u32 = 1;
    pub const STOP: u32 = 2;
    pub const PASS_ON: u32 = 3;
}

/// Orders to a timer.
pub mod timer {
    pub const NONE: u32 = 0;
    pub const START: u32 = 1;
    pub const CANCEL: u32 = 2;
}

/// The lent slice that the payload part is taken from.
pub mod slice {
    pub const NONE: u32 = 0;
    pub const PAYLOAD: u32 = 1;
    pub const CACHE: u32 = 2;
}

/// What the host is to do after a call; empty unless the event was handled.
#[derive(Clone, Copy, Debug, Default, PartialEq, Eq)]
pub struct Sheet {
    pub message: u32,
    pub prover: u32,
    pub verifier: u32,
    pub h: u32,
    pub hp: u32,
    pub hv: u32,
    pub dat: u32,
    pub ra: u32,
    pub ack: u32,
    pub dat_seconds: u32,
    pub bit: u32,
    pub hand_up: bool,
    pub verifier_suite: u32,
    pub prover_suite: u32,
    pub slice: u32,
    pub len: u32,
}

impl Sheet {
    pub(crate) fn of(turn: &Turn) -> Sheet {
        let (slice, len) = part_place(turn);
        let (verifier_suite, prover_suite) = suites(turn);
        let mut sheet = Sheet {
            message: message_of(turn.row),
            prover: prover_order(turn),
            verifier: verifier_order(turn),
            h: timer_order(Timer::H, turn),
            hp: timer_order(Timer::Hp, turn),
            hv: timer_order(Timer::Hv, turn),
            dat: timer_order(Timer::Dat, turn),
            ra: timer_order(Timer::Ra, turn),
            ack: timer_order(Timer::Ack, turn),
            dat_seconds: 0,
            bit: bit_of(turn),
            hand_up: turn.row == Row::Data,
            verifier_suite,
            prover_suite,
            slice,
            len,
        };
        if sheet.dat == timer::START {
            sheet.dat_seconds = turn.call.seconds_left() as u32;
        }
        sheet
    }
}

fn message_of(row: Row) -> u32 {
    match row {
        Row::Start => message::HELLO,
        Row::BadHello | Row::Close | Row::ProverFailed | Row::VerifierFailed | Row::BadDat => {
            message::CLOSE
        }
        Row::ProverMessage => message::RA_PROVER,
        Row::VerifierMessage => message::RA_VERIFIER,
        Row::DatAsked => message::DAT,
        Row::AskReRa => message::RE_RA,
        Row::DatTimeout => message::DAT_EXPIRED,
        Row::SendData | Row::Repeat => message::DATA,
        Row::Data => message::ACK,
        Row::GoodHello
        | Row::Lost
        | Row::ProverOk
        | Row::VerifierOk
        | Row::ReRaAsked
        | Row::GoodDat
        | Row::ToVerifier
        | Row::ToProver
        | Row::Ack => message::NONE,
    }
}

/// "A driver that reported OK or FAILED gets no stop; other drivers running are
/// stopped on locking."
fn prover_order(turn: &Turn) -> u32 {
    if turn.row.starts_prover() {
        driver::START
    } else if turn.row == Row::ToProver {
        driver::PASS_ON
    } else if turn.locks() && turn.record.prover != 0 && turn.row != Row::ProverFailed {
        driver::STOP
    } else {
        driver::NONE
    }
}

/// Like the prover's, but stopped "by 21" as well.
fn verifier_order(turn: &Turn) -> u32 {
    let ends = turn.locks() || turn.row == Row::DatTimeout;
    if turn.row.starts_verifier() {
        driver::START
    } else if turn.row == Row::ToVerifier {
        driver::PASS_ON
    } else if ends && turn.record.verifier != 0 && turn.row != Row::VerifierFailed {
        driver::STOP
    } else {
        driver::NONE
    }
}

/// "The timer that this event reports, or one with tag 0, gets no cancel."
fn timer_order(timer: Timer, turn: &Turn) -> u32 {
    let reported = Timer::reported(&turn.call.event) == Some(timer);
    match turn.change(timer) {
        Change::Start => timer::START,
        Change::End if timer.tag(turn.record) != 0 && !reported => timer::CANCEL,
        _ => timer::NONE,
    }
}

/// "The bit of a DATA or ACK, else 0."
fn bit_of(turn: &Turn) -> u32 {
    match turn.row {
        Row::SendData | Row::Repeat => turn.record.next_send_bit,
        Row::Data => turn.call.event.bit,
        _ => 0,
    }
}

/// "Both chosen suites on opening, else 0": the verifier's and the prover's.
fn suites(turn: &Turn) -> (u32, u32) {
    if turn.row != Row::GoodHello {
        return (0, 0);
    }
    let found = turn.call.lists.found();
    (found.verifier.unwrap_or(0), found.prover.unwrap_or(0))
}

/// "The cache for events 2 and 23, the event's payload for 6, 9, 15, 16, 18,
/// else an empty part."
fn part_place(turn: &Turn) -> (u32, u32) {
    let payload_len = turn.call.payload.len() as u32;
    match turn.call.event.code {
        code::UPPER_SEND_DATA => (slice::CACHE, payload_len),
        code::ACK_TIMEOUT => (slice::CACHE, turn.record.cached_len),
        code::RA_VERIFIER_MSG
        | code::RA_PROVER_MSG
        | code::SC_RA_PROVER
        | code::SC_RA_VERIFIER
        | code::SC_DATA => (slice::PAYLOAD, payload_len),
        _ => (slice::NONE, 0),
    }
}

/// The payload part that a sheet names; "a slice shorter than that gives an
/// empty part".
pub fn part<'a>(sheet: &Sheet, payload: &'a [u8], cache: &'a [u8]) -> &'a [u8] {
    let whole = match sheet.slice {
        slice::PAYLOAD => payload,
        slice::CACHE => cache,
        _ => &[],
    };
    whole.get(..sheet.len as usize).unwrap_or(&[])
}
