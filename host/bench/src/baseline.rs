//! The step in ordinary Rust, written for speed: record and actions are changed in place, and each event has an arm
//! that asks for the states that take it.

use menhotrac::raw::{Actions, Connection, Event, Lists, HANDLED, IGNORED, WRONG_VERDICT};

const MAX_PAYLOAD: usize = 4096;
const MAX_SUITES: usize = 16;
const DAY: i64 = 86_400;
const MAX_MARGIN: u32 = 300;

const HELLO: u32 = 1;
const CLOSE: u32 = 2;
const DAT_EXPIRED: u32 = 3;
const DAT: u32 = 4;
const RE_RA: u32 = 5;
const RA_PROVER: u32 = 6;
const RA_VERIFIER: u32 = 7;
const DATA: u32 = 8;
const ACK: u32 = 9;

const START: u32 = 1;
const STOP: u32 = 2;
const CANCEL: u32 = 2;
const FORWARD: u32 = 3;

const OF_EVENT: u32 = 1;
const OF_CACHE: u32 = 2;

const NUMBER_EXHAUSTED: u32 = 8;
const MARGIN_TOO_LARGE: u32 = 9;

const NO_ACTIONS: Actions = Actions {
    message: 0,
    prover: 0,
    verifier: 0,
    h: 0,
    hp: 0,
    hv: 0,
    dat: 0,
    ra: 0,
    ack: 0,
    dat_seconds: 0,
    bit: 0,
    deliver: 0,
    verifier_suite: 0,
    prover_suite: 0,
    payload_slice: 0,
    payload_len: 0,
};

/// Answers as the archive does: 0 handled, 100 ignored, else the refusal's number.
#[inline(never)]
pub fn step(
    c: &mut Connection,
    e: &Event,
    payload: &[u8],
    lists: &Lists,
    cache: &mut [u8],
    a: &mut Actions,
) -> u32 {
    *a = NO_ACTIONS;
    let fault = argument_fault(e, payload, lists, cache);
    if fault != 0 {
        return fault;
    }
    if !well_formed(c) {
        return 7;
    }
    take(c, e, payload, lists, cache, a)
}

/// What becomes of an event whose call has none of the faults 1 to 7.
#[inline(always)]
fn take(
    c: &mut Connection,
    e: &Event,
    payload: &[u8],
    lists: &Lists,
    cache: &mut [u8],
    a: &mut Actions,
) -> u32 {
    let len = payload.len() as u32;
    match e.code {
        0 => start_handshake(c, a),
        1 | 10 | 12 => close(c, e, a),
        2 => send_data(c, payload, cache, a),
        3 => verify_again(c, a, CANCEL),
        4 => verifier_ok(c, e, a),
        5 => failed(c, e, a, c.verifier),
        6 => send_report(c, e, a, c.verifier, RA_VERIFIER, len),
        7 => prover_ok(c, e, a),
        8 => failed(c, e, a, c.prover),
        9 => send_report(c, e, a, c.prover, RA_PROVER, len),
        11 => hello(c, e, lists, a),
        13 => renew_token(c, e, a),
        14 => prove_again(c, a, DAT),
        15 => pass_on(c, a, true, len),
        16 => pass_on(c, a, false, len),
        17 => prove_again(c, a, 0),
        18 => receive_data(c, e, a, len),
        19 => receive_ack(c, e, a),
        20 => handshake_timeout(c, e, a),
        21 => expire_token(c, e, a),
        22 if live(e, c.ra) => verify_again(c, a, 0),
        23 => repeat_data(c, e, a),
        _ => IGNORED,
    }
}

fn argument_fault(e: &Event, payload: &[u8], lists: &Lists, cache: &[u8]) -> u32 {
    match e.code {
        20 if e.timer > 2 => return 2,
        18 | 19 if e.bit > 1 => return 3,
        24.. => return 1,
        _ => {}
    }
    if payload.len() > MAX_PAYLOAD && matches!(e.code, 2 | 6 | 9 | 15 | 16 | 18) {
        return 4;
    }
    if cache.len() < MAX_PAYLOAD {
        return 5;
    }
    if e.code == 11 && any_too_long(lists) {
        return 6;
    }
    0
}

fn any_too_long(lists: &Lists) -> bool {
    lists.our_verifiers.len() > MAX_SUITES
        || lists.peer_provers.len() > MAX_SUITES
        || lists.peer_verifiers.len() > MAX_SUITES
        || lists.our_provers.len() > MAX_SUITES
}

/// Which of H, prover, verifier, DAT, RA and ACK are on, as bits from the lowest.
fn running(c: &Connection) -> u32 {
    u32::from(c.h != 0)
        | u32::from(c.prover != 0) << 1
        | u32::from(c.verifier != 0) << 2
        | u32::from(c.dat != 0) << 3
        | u32::from(c.ra != 0) << 4
        | u32::from(c.ack != 0) << 5
}

/// Of each state: the timers that run, and the greatest flag and bits. The flag is 1 in WAIT_FOR_ACK.
struct Fit {
    runs: u32,
    most_flag: u32,
    most_bit: u32,
}

const fn fit(runs: u32, most_flag: u32, most_bit: u32) -> Fit {
    Fit {
        runs,
        most_flag,
        most_bit,
    }
}

const FITS: [Fit; 10] = [
    fit(0b00_0000, 0, 0),
    fit(0b00_0001, 0, 0),
    fit(0b00_1110, 1, 1),
    fit(0b01_1010, 1, 1),
    fit(0b00_1100, 1, 1),
    fit(0b00_0011, 1, 1),
    fit(0b00_0001, 1, 1),
    fit(0b01_1000, 0, 1),
    fit(0b11_1000, 1, 1),
    fit(0b00_0000, 0, 0),
];

fn well_formed(c: &Connection) -> bool {
    let Some(fit) = FITS.get(c.state as usize) else {
        return false;
    };
    let highest =
        c.h.max(c.prover)
            .max(c.verifier)
            .max(c.dat)
            .max(c.ra)
            .max(c.ack);
    running(c) == fit.runs
        && c.awaiting_ack <= fit.most_flag
        && (c.next_send_bit | c.expected_bit) <= fit.most_bit
        && highest <= c.handled
        && c.cached_len <= MAX_PAYLOAD as u32
        && (c.awaiting_ack == 1 || (c.cached_len == 0 && c.state != 8))
        && (c.state != 0 || c.handled == 0)
}

fn live(e: &Event, tag: u32) -> bool {
    e.tag != 0 && e.tag == tag
}

/// `CANCEL` or `STOP` for what runs.
fn end(tag: u32) -> u32 {
    if tag != 0 {
        CANCEL
    } else {
        0
    }
}

/// Where a run that succeeded leads: to WAIT_FOR_ACK with its timer started if a block waits, else to ESTABLISHED.
fn establish(c: &mut Connection, a: &mut Actions, n: u32) {
    if c.awaiting_ack == 1 {
        c.state = 8;
        c.ack = n;
        a.ack = START;
    } else {
        c.state = 7;
    }
}

fn lock(c: &mut Connection, a: &mut Actions, n: u32, message: u32) {
    a.message = message;
    a.prover = end(c.prover);
    a.verifier = end(c.verifier);
    a.h = end(c.h);
    a.hp = end(c.prover);
    a.hv = end(c.verifier);
    a.dat = end(c.dat);
    a.ra = end(c.ra);
    a.ack = end(c.ack);
    *c = Connection {
        state: 9,
        handled: n,
        ..Connection::default()
    };
}

macro_rules! next_number {
    ($c:expr) => {
        match $c.handled.checked_add(1) {
            Some(n) => {
                $c.handled = n;
                n
            }
            None => return NUMBER_EXHAUSTED,
        }
    };
}

fn start_handshake(c: &mut Connection, a: &mut Actions) -> u32 {
    if c.state != 0 {
        return IGNORED;
    }
    let n = next_number!(c);
    c.state = 1;
    c.h = n;
    a.message = HELLO;
    a.h = START;
    HANDLED
}

fn close(c: &mut Connection, e: &Event, a: &mut Actions) -> u32 {
    if c.state == 0 || c.state == 9 {
        return IGNORED;
    }
    let n = next_number!(c);
    lock(c, a, n, if e.code == 1 { CLOSE } else { 0 });
    HANDLED
}

fn failed(c: &mut Connection, e: &Event, a: &mut Actions, tag: u32) -> u32 {
    if !live(e, tag) {
        return IGNORED;
    }
    let n = next_number!(c);
    lock(c, a, n, CLOSE);
    if e.code == 5 {
        a.verifier = 0;
    } else {
        a.prover = 0;
    }
    HANDLED
}

fn handshake_timeout(c: &mut Connection, e: &Event, a: &mut Actions) -> u32 {
    let tag = match e.timer {
        0 => c.h,
        1 => c.prover,
        _ => c.verifier,
    };
    if !live(e, tag) {
        return IGNORED;
    }
    let n = next_number!(c);
    lock(c, a, n, CLOSE);
    match e.timer {
        0 => a.h = 0,
        1 => a.hp = 0,
        _ => a.hv = 0,
    }
    HANDLED
}

fn hello(c: &mut Connection, e: &Event, lists: &Lists, a: &mut Actions) -> u32 {
    if c.state != 1 {
        return token_fault(e).unwrap_or(IGNORED);
    }
    let n = match c.handled.checked_add(1) {
        Some(n) => n,
        None => return NUMBER_EXHAUSTED,
    };
    if let Some(fault) = token_fault(e) {
        return fault;
    }
    let seconds = good_seconds(e);
    let verifier = first_common(lists.our_verifiers, lists.peer_provers);
    let prover = first_common(lists.peer_verifiers, lists.our_provers);
    let (Some(verifier), Some(prover), true) = (verifier, prover, seconds > 0) else {
        lock(c, a, n, CLOSE);
        return HANDLED;
    };
    c.state = 2;
    c.handled = n;
    c.h = 0;
    c.prover = n;
    c.verifier = n;
    c.dat = n;
    a.prover = START;
    a.verifier = START;
    a.h = CANCEL;
    a.hp = START;
    a.hv = START;
    a.dat = START;
    a.dat_seconds = seconds;
    a.verifier_suite = verifier;
    a.prover_suite = prover;
    HANDLED
}

fn first_common(verifiers: &[u32], provers: &[u32]) -> Option<u32> {
    verifiers
        .iter()
        .copied()
        .find(|suite| provers.contains(suite))
}

/// What is refused of a token after the faults 1 to 8.
fn token_fault(e: &Event) -> Option<u32> {
    if e.margin > MAX_MARGIN {
        Some(MARGIN_TOO_LARGE)
    } else if e.verdict > 1 {
        Some(WRONG_VERDICT)
    } else {
        None
    }
}

fn good_seconds(e: &Event) -> u32 {
    let left = e
        .expiry
        .saturating_sub(e.now)
        .saturating_sub(e.margin.into());
    let left = left.clamp(-DAY, DAY);
    if e.verdict == 1 && left >= 1 {
        left as u32
    } else {
        0
    }
}

fn renew_token(c: &mut Connection, e: &Event, a: &mut Actions) -> u32 {
    if c.state != 5 && c.state != 6 {
        return token_fault(e).unwrap_or(IGNORED);
    }
    let n = match c.handled.checked_add(1) {
        Some(n) => n,
        None => return NUMBER_EXHAUSTED,
    };
    if let Some(fault) = token_fault(e) {
        return fault;
    }
    let seconds = good_seconds(e);
    if seconds == 0 {
        lock(c, a, n, CLOSE);
        return HANDLED;
    }
    a.verifier = START;
    a.h = CANCEL;
    a.hv = START;
    a.dat = START;
    a.dat_seconds = seconds;
    c.state = if c.state == 5 { 2 } else { 4 };
    c.handled = n;
    c.h = 0;
    c.verifier = n;
    c.dat = n;
    HANDLED
}

fn verifier_ok(c: &mut Connection, e: &Event, a: &mut Actions) -> u32 {
    if !live(e, c.verifier) {
        return IGNORED;
    }
    let n = next_number!(c);
    c.verifier = 0;
    c.ra = n;
    a.hv = CANCEL;
    a.ra = START;
    if c.state == 2 {
        c.state = 3;
    } else {
        establish(c, a, n);
    }
    HANDLED
}

fn prover_ok(c: &mut Connection, e: &Event, a: &mut Actions) -> u32 {
    if !live(e, c.prover) {
        return IGNORED;
    }
    let n = next_number!(c);
    c.prover = 0;
    a.hp = CANCEL;
    match c.state {
        2 => c.state = 4,
        5 => c.state = 6,
        _ => establish(c, a, n),
    }
    HANDLED
}

fn send_report(
    c: &mut Connection,
    e: &Event,
    a: &mut Actions,
    tag: u32,
    message: u32,
    len: u32,
) -> u32 {
    if !live(e, tag) {
        return IGNORED;
    }
    next_number!(c);
    a.message = message;
    a.payload_slice = OF_EVENT;
    a.payload_len = len;
    HANDLED
}

#[inline(always)]
fn pass_on(c: &mut Connection, a: &mut Actions, to_verifier: bool, len: u32) -> u32 {
    let (tag, order) = if to_verifier {
        (c.verifier, &mut a.verifier)
    } else {
        (c.prover, &mut a.prover)
    };
    if tag == 0 {
        return IGNORED;
    }
    next_number!(c);
    *order = FORWARD;
    a.payload_slice = OF_EVENT;
    a.payload_len = len;
    HANDLED
}

fn prove_again(c: &mut Connection, a: &mut Actions, message: u32) -> u32 {
    let next = match c.state {
        2 | 4 => 2,
        3 | 7 | 8 => 3,
        5 | 6 => 5,
        _ => return IGNORED,
    };
    let n = next_number!(c);
    a.message = message;
    a.prover = START;
    a.hp = START;
    a.ack = end(c.ack);
    c.state = next;
    c.prover = n;
    c.ack = 0;
    HANDLED
}

/// `ra` is the order to the RA timer, which a live RA_TIMEOUT has ended by itself.
fn verify_again(c: &mut Connection, a: &mut Actions, ra: u32) -> u32 {
    let next = match c.state {
        3 => 2,
        7 | 8 => 4,
        _ => return IGNORED,
    };
    let n = next_number!(c);
    a.message = RE_RA;
    a.verifier = START;
    a.hv = START;
    a.ra = ra;
    a.ack = end(c.ack);
    c.state = next;
    c.verifier = n;
    c.ra = 0;
    c.ack = 0;
    HANDLED
}

fn expire_token(c: &mut Connection, e: &Event, a: &mut Actions) -> u32 {
    if !live(e, c.dat) {
        return IGNORED;
    }
    let n = next_number!(c);
    a.message = DAT_EXPIRED;
    a.verifier = if c.verifier != 0 { STOP } else { 0 };
    a.h = START;
    a.hv = end(c.verifier);
    a.ra = end(c.ra);
    a.ack = end(c.ack);
    c.state = if c.prover != 0 { 5 } else { 6 };
    c.h = n;
    c.verifier = 0;
    c.dat = 0;
    c.ra = 0;
    c.ack = 0;
    HANDLED
}

fn send_data(c: &mut Connection, payload: &[u8], cache: &mut [u8], a: &mut Actions) -> u32 {
    if c.state != 7 {
        return IGNORED;
    }
    let n = next_number!(c);
    let len = payload.len() as u32;
    cache[..payload.len()].copy_from_slice(payload);
    c.state = 8;
    c.awaiting_ack = 1;
    c.cached_len = len;
    c.ack = n;
    a.message = DATA;
    a.ack = START;
    a.bit = c.next_send_bit;
    a.payload_slice = OF_CACHE;
    a.payload_len = len;
    HANDLED
}

fn repeat_data(c: &mut Connection, e: &Event, a: &mut Actions) -> u32 {
    if !live(e, c.ack) {
        return IGNORED;
    }
    let n = next_number!(c);
    c.ack = n;
    a.message = DATA;
    a.ack = START;
    a.bit = c.next_send_bit;
    a.payload_slice = OF_CACHE;
    a.payload_len = c.cached_len;
    HANDLED
}

fn receive_data(c: &mut Connection, e: &Event, a: &mut Actions, len: u32) -> u32 {
    if (c.state != 7 && c.state != 8) || e.bit != c.expected_bit {
        return IGNORED;
    }
    next_number!(c);
    c.expected_bit ^= 1;
    a.message = ACK;
    a.bit = e.bit;
    a.deliver = 1;
    a.payload_slice = OF_EVENT;
    a.payload_len = len;
    HANDLED
}

fn receive_ack(c: &mut Connection, e: &Event, a: &mut Actions) -> u32 {
    if c.awaiting_ack == 0 || e.bit != c.next_send_bit {
        return IGNORED;
    }
    next_number!(c);
    a.ack = end(c.ack);
    if c.state == 8 {
        c.state = 7;
    }
    c.awaiting_ack = 0;
    c.next_send_bit ^= 1;
    c.cached_len = 0;
    c.ack = 0;
    HANDLED
}
