//! Document 01's boot run, with state, number, tags and orders after each call.

use menhotrac::{
    Actions, Answer, Bit, Connection, DatTimerOrder, DriverOrder, Event, Message, State, Suites,
    Tag, Tags, TimerOrder, Timers, CACHE_LEN,
};

use crate::bytes::message;
use crate::support::{handled, LISTS, OURS, TOKEN};

/// The output of the program `boot`.
const PRINTED: &str = include_str!("../../../../crates/boot/stdout");

const BLOCK: &[u8] = &[1, 2, 3, 4, 5];

const RUN: [Event; 10] = [
    Event::UpperStartHandshake,
    Event::ScHello {
        token: TOKEN,
        lists: LISTS,
    },
    Event::RaProverOk(Tag(2)),
    Event::RaVerifierOk(Tag(1)),
    Event::RaVerifierOk(Tag(2)),
    Event::UpperSendData(BLOCK),
    Event::ScReRa,
    Event::RaProverOk(Tag(2)),
    Event::ScAck(Bit::Zero),
    Event::RaProverOk(Tag(6)),
];

const START: Option<TimerOrder> = Some(TimerOrder::Start);
const CANCEL: Option<TimerOrder> = Some(TimerOrder::Cancel);

/// The run as far as its first calls.
fn after(calls: usize, cache: &mut [u8]) -> Connection {
    let mut connection = Connection::fresh();
    for event in &RUN[..calls] {
        let _ = connection.step(*event, cache);
    }
    connection
}

/// Checks the orders of a call of the run, counted from 1.
fn orders(call: usize, expected: Actions) {
    let mut cache = [0; CACHE_LEN];
    let mut connection = after(call - 1, &mut cache);
    let actions = handled(connection.step(RUN[call - 1], &mut cache));
    assert_eq!(actions, expected);
}

fn ignored(call: usize) {
    let mut cache = [0; CACHE_LEN];
    let mut connection = after(call - 1, &mut cache);
    let before = connection.clone();
    let cache_before = cache;
    assert_eq!(connection.step(RUN[call - 1], &mut cache), Answer::Ignored);
    assert_eq!(connection, before);
    assert_eq!(cache, cache_before);
}

#[test]
fn prints_as_the_program_does() {
    let mut lines = String::new();
    for calls in 1..=RUN.len() {
        let connection = after(calls, &mut [0; CACHE_LEN]);
        let state = connection.state().unwrap().number();
        lines += &format!("{state} {}\n", connection.handled());
    }
    assert_eq!(lines, PRINTED);
}

/// An event of the run. Those of the peer come as bytes.
fn happens(connection: &mut Connection, event: Event, cache: &mut [u8]) {
    match message(event) {
        Some(bytes) => {
            let _ = connection.receive(&bytes, Some(TOKEN), OURS, cache);
        }
        None => {
            let _ = connection.step(event, cache);
        }
    }
}

#[test]
fn prints_the_same_where_messages_are_received() {
    let mut connection = Connection::fresh();
    let mut cache = [0; CACHE_LEN];
    let mut lines = String::new();
    for event in RUN {
        happens(&mut connection, event, &mut cache);
        let state = connection.state().unwrap().number();
        lines += &format!("{state} {}\n", connection.handled());
    }
    assert_eq!(lines, PRINTED);
}

#[test]
fn begins_fresh() {
    let connection = Connection::fresh();
    assert_eq!(connection.state(), Some(State::ClosedUnlocked));
    assert_eq!(connection.handled(), 0);
    assert_eq!(connection.tags(), Tags::default());
    assert_eq!(connection.raw(), menhotrac::raw::Connection::default());
}

#[test]
fn handshake_sends_hello() {
    orders(
        1,
        Actions {
            tag: Tag(1),
            message: Some(Message::Hello),
            timers: Timers {
                h: START,
                ..Timers::default()
            },
            ..Actions::default()
        },
    );
}

#[test]
fn hello_opens() {
    orders(
        2,
        Actions {
            tag: Tag(2),
            prover: Some(DriverOrder::Start),
            verifier: Some(DriverOrder::Start),
            timers: Timers {
                h: CANCEL,
                hp: START,
                hv: START,
                dat: Some(DatTimerOrder::Start { seconds: 60 }),
                ..Timers::default()
            },
            suites: Some(Suites {
                verifier: 7,
                prover: 3,
            }),
            ..Actions::default()
        },
    );
}

#[test]
fn opening_tags_what_it_starts() {
    let tag = Some(Tag(2));
    let tags = Tags {
        prover: tag,
        verifier: tag,
        dat: tag,
        ..Tags::default()
    };
    assert_eq!(after(2, &mut [0; CACHE_LEN]).tags(), tags);
}

#[test]
fn prover_ok_cancels_its_timer() {
    let timers = Timers {
        hp: CANCEL,
        ..Timers::default()
    };
    orders(
        3,
        Actions {
            tag: Tag(3),
            timers,
            ..Actions::default()
        },
    );
}

#[test]
fn verifier_ok_of_another_start_is_ignored() {
    ignored(4);
}

#[test]
fn verifier_ok_starts_ra() {
    let timers = Timers {
        hv: CANCEL,
        ra: START,
        ..Timers::default()
    };
    orders(
        5,
        Actions {
            tag: Tag(4),
            timers,
            ..Actions::default()
        },
    );
}

#[test]
fn block_is_sent() {
    orders(
        6,
        Actions {
            tag: Tag(5),
            message: Some(Message::Data(Bit::Zero)),
            timers: Timers {
                ack: START,
                ..Timers::default()
            },
            part: BLOCK,
            ..Actions::default()
        },
    );
}

#[test]
fn re_ra_starts_the_prover_and_keeps_the_block() {
    orders(
        7,
        Actions {
            tag: Tag(6),
            prover: Some(DriverOrder::Start),
            timers: Timers {
                hp: START,
                ack: CANCEL,
                ..Timers::default()
            },
            ..Actions::default()
        },
    );
    assert_eq!(after(7, &mut [0; CACHE_LEN]).raw().awaiting_ack, 1);
}

#[test]
fn prover_ok_of_the_first_start_is_ignored() {
    ignored(8);
}

#[test]
fn ack_orders_nothing() {
    orders(
        9,
        Actions {
            tag: Tag(7),
            ..Actions::default()
        },
    );
}

#[test]
fn second_prover_ok_establishes() {
    let timers = Timers {
        hp: CANCEL,
        ..Timers::default()
    };
    orders(
        10,
        Actions {
            tag: Tag(8),
            timers,
            ..Actions::default()
        },
    );
    let connection = after(10, &mut [0; CACHE_LEN]);
    assert_eq!(connection.state(), Some(State::Established));
}
