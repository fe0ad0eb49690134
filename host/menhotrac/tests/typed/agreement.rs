//! Every typed call does what the flat call with its numbers does.

use menhotrac::{
    raw, Actions, Answer, Bit, Connection, DatTimerOrder, Event, HandshakeTimer, Lists, Message,
    Tag, Token, MAX_MARGIN,
};

use crate::support::{every_event, patterned_cache, record, Carried, CARRIED, TOKEN};

const PAYLOAD: &[u8] = b"payload";

#[test]
fn of_all_events_in_all_states() {
    for state in 0..10 {
        agrees_with_all_fields(record(state));
    }
}

/// The bits are 0 in the other states.
#[test]
fn with_the_other_bits() {
    for state in 2..9 {
        agrees_with_all_fields(raw::Connection {
            next_send_bit: 1,
            ..record(state)
        });
        agrees_with_all_fields(raw::Connection {
            expected_bit: 1,
            ..record(state)
        });
    }
}

/// A block can wait in these states besides WAIT_FOR_ACK.
#[test]
fn with_a_block_that_waits() {
    for state in 2..7 {
        agrees_with_all_fields(raw::Connection {
            awaiting_ack: 1,
            cached_len: 4,
            ..record(state)
        });
    }
}

/// A flat event with a margin that would be refused does what the typed event does, which has none.
#[test]
fn margin_is_read_of_hello_and_dat_alone() {
    let token = Token {
        margin: u32::MAX,
        ..TOKEN
    };
    for state in 0..10 {
        for tag in 0..=7 {
            let carried = Carried {
                tag: Tag(tag),
                token,
                payload: PAYLOAD,
                ..CARRIED
            };
            agrees_without_a_token(record(state), carried);
        }
    }
}

fn agrees_without_a_token(record: raw::Connection, carried: Carried) {
    for (code, event) in (0..).zip(every_event(carried)) {
        if !matches!(event, Event::ScHello { .. } | Event::ScDat(_)) {
            agrees(record, event, code, carried);
        }
    }
}

fn agrees_with_all_fields(record: raw::Connection) {
    for tag in 0..=7 {
        let tag = Tag(tag);
        for bit in [Bit::Zero, Bit::One] {
            agrees_on_all(
                record,
                Carried {
                    tag,
                    bit,
                    ..CARRIED
                },
            );
        }
        for timer in [HandshakeTimer::Hp, HandshakeTimer::Hv] {
            agrees_on_all(
                record,
                Carried {
                    tag,
                    timer,
                    ..CARRIED
                },
            );
        }
    }
    for (verdict, margin) in [(false, 0), (true, 1), (true, MAX_MARGIN)] {
        let token = Token {
            verdict,
            margin,
            ..TOKEN
        };
        agrees_on_all(record, Carried { token, ..CARRIED });
    }
    let lists = Lists::default();
    agrees_on_all(record, Carried { lists, ..CARRIED });
}

fn agrees_on_all(record: raw::Connection, carried: Carried) {
    let carried = Carried {
        payload: PAYLOAD,
        ..carried
    };
    for (code, event) in (0..).zip(every_event(carried)) {
        agrees(record, event, code, carried);
    }
}

/// The flat event has all fields, as only those that its code carries are read.
fn flat_event(code: u32, carried: Carried) -> raw::Event {
    raw::Event {
        code,
        tag: carried.tag.0,
        timer: carried.timer.number(),
        bit: carried.bit.number(),
        verdict: carried.token.verdict.into(),
        margin: carried.token.margin,
        expiry: carried.token.expiry,
        now: carried.token.now,
    }
}

fn agrees(record: raw::Connection, event: Event, code: u32, carried: Carried) {
    let mut flat = record;
    let mut flat_cache = patterned_cache();
    let mut sheet = raw::Actions::default();
    let number = raw::step(
        &mut flat,
        &flat_event(code, carried),
        PAYLOAD,
        &carried.lists,
        &mut flat_cache,
        &mut sheet,
    );

    let mut typed = Connection::from_raw(record);
    let mut cache = patterned_cache();
    let cache_start = cache.as_ptr_range().start;
    let (typed_number, typed_sheet) = match typed.step(event, &mut cache) {
        Answer::Handled(actions) => {
            assert_eq!(actions.tag.0, flat.handled);
            (raw::HANDLED, sheet_of(&actions, cache_start))
        }
        Answer::Ignored => (raw::IGNORED, raw::Actions::default()),
        Answer::Refused(refusal) => panic!("{refusal}: {event:?} in {record:?}"),
    };
    assert_eq!(typed_number, number, "{event:?} in {record:?}");
    assert_eq!(typed_sheet, sheet, "{event:?} in {record:?}");
    assert_eq!(typed.raw(), flat, "{event:?} in {record:?}");
    assert_eq!(cache, flat_cache, "{event:?} in {record:?}");
}

/// The numbers of actions.
fn sheet_of(actions: &Actions, cache: *const u8) -> raw::Actions {
    let timers = actions.timers;
    let (dat, dat_seconds) = match timers.dat {
        None => (0, 0),
        Some(DatTimerOrder::Start { seconds }) => (1, seconds),
        Some(DatTimerOrder::Cancel) => (2, 0),
    };
    let bit = match actions.message {
        Some(Message::Data(bit) | Message::Ack(bit)) => bit.number(),
        _ => 0,
    };
    raw::Actions {
        message: actions.message.map_or(0, Message::number),
        prover: actions.prover.map_or(0, |order| order.number()),
        verifier: actions.verifier.map_or(0, |order| order.number()),
        h: timers.h.map_or(0, |order| order.number()),
        hp: timers.hp.map_or(0, |order| order.number()),
        hv: timers.hv.map_or(0, |order| order.number()),
        dat,
        ra: timers.ra.map_or(0, |order| order.number()),
        ack: timers.ack.map_or(0, |order| order.number()),
        dat_seconds,
        bit,
        deliver: actions.deliver.into(),
        verifier_suite: actions.suites.map_or(0, |suites| suites.verifier),
        prover_suite: actions.suites.map_or(0, |suites| suites.prover),
        payload_slice: slice_of(actions.part, cache),
        payload_len: actions.part.len() as u32,
    }
}

/// The slice that a part begins with: 1 the payload, 2 the cache, 0 none.
fn slice_of(part: &[u8], cache: *const u8) -> u32 {
    match part.as_ptr() {
        start if start == PAYLOAD.as_ptr() => 1,
        start if start == cache => 2,
        _ => 0,
    }
}
