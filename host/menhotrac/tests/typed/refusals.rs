//! Each refusal that typed calls can meet, with record and cache unchanged.

use menhotrac::{
    raw, Answer, Connection, Event, Lists, Refusal, State, Token, CACHE_LEN, MAX_LIST_LEN,
    MAX_MARGIN, MAX_PAYLOAD_LEN,
};

use crate::support::{
    every_event, handled, in_state, judged, patterned_cache, record, Carried, CARRIED,
    LARGE_MARGINS, LISTS, TOKEN,
};

const LONG_PAYLOAD: [u8; MAX_PAYLOAD_LEN + 1] = [1; MAX_PAYLOAD_LEN + 1];
const LONG_LIST: [u32; MAX_LIST_LEN + 1] = [3; MAX_LIST_LEN + 1];

fn refuses(connection: &Connection, event: Event, cache_len: usize, refusal: Refusal) {
    let mut stepped = connection.clone();
    let mut cache = patterned_cache();
    let answer = stepped.step(event, &mut cache[..cache_len]);
    assert_eq!(answer, Answer::Refused(refusal), "{event:?}");
    assert_eq!(stepped, *connection);
    assert_eq!(cache, patterned_cache());
}

#[test]
fn long_payload() {
    let events = every_event(Carried {
        payload: &LONG_PAYLOAD,
        ..CARRIED
    });
    for state in 0..10 {
        for code in [2, 6, 9, 15, 16, 18] {
            refuses(
                &in_state(state),
                events[code],
                CACHE_LEN,
                Refusal::PayloadTooLong,
            );
        }
    }
}

#[test]
fn short_cache() {
    for state in 0..10 {
        for event in every_event(CARRIED) {
            refuses(
                &in_state(state),
                event,
                CACHE_LEN - 1,
                Refusal::CacheTooShort,
            );
            refuses(&in_state(state), event, 0, Refusal::CacheTooShort);
        }
    }
}

#[test]
fn long_list() {
    let long = &LONG_LIST;
    let each = [
        Lists {
            our_verifiers: long,
            ..LISTS
        },
        Lists {
            peer_provers: long,
            ..LISTS
        },
        Lists {
            peer_verifiers: long,
            ..LISTS
        },
        Lists {
            our_provers: long,
            ..LISTS
        },
    ];
    for state in 0..10 {
        for lists in each {
            let event = Event::ScHello {
                token: TOKEN,
                lists,
            };
            refuses(&in_state(state), event, CACHE_LEN, Refusal::ListTooLong);
        }
    }
}

#[test]
fn longest_lists_are_taken() {
    let list = &LONG_LIST[..MAX_LIST_LEN];
    let lists = Lists {
        our_verifiers: list,
        peer_provers: list,
        peer_verifiers: list,
        our_provers: list,
    };
    let event = Event::ScHello {
        token: TOKEN,
        lists,
    };
    assert!(handled(in_state(1).step(event, &mut patterned_cache()))
        .suites
        .is_some());
}

#[test]
fn malformed_record() {
    let (none, waiting) = (record(0), record(8));
    let malformed = [
        raw::Connection { state: 10, ..none },
        raw::Connection { handled: 1, ..none },
        raw::Connection {
            awaiting_ack: 2,
            ..waiting
        },
        raw::Connection {
            next_send_bit: 2,
            ..waiting
        },
        raw::Connection {
            expected_bit: 2,
            ..waiting
        },
        raw::Connection {
            cached_len: 4097,
            ..waiting
        },
        raw::Connection { ack: 0, ..waiting },
        raw::Connection { h: 1, ..waiting },
        raw::Connection {
            dat: waiting.handled + 1,
            ..waiting
        },
        raw::Connection { ra: 5, ..record(5) },
        raw::Connection { ra: 5, ..record(6) },
    ];
    for record in malformed {
        let connection = Connection::from_raw(record);
        assert_eq!(connection.raw(), record);
        for event in every_event(CARRIED) {
            refuses(&connection, event, CACHE_LEN, Refusal::NotWellFormed);
        }
    }
}

#[test]
fn state_above_9() {
    let connection = Connection::from_raw(raw::Connection {
        state: 10,
        ..raw::Connection::default()
    });
    assert_eq!(connection.state(), None);
    assert_eq!(in_state(9).state(), Some(State::ClosedLocked));
}

/// A record whose number is at its end.
fn exhausted(state: usize) -> Connection {
    Connection::from_raw(raw::Connection {
        handled: u32::MAX,
        ..record(state)
    })
}

#[test]
fn exhausted_number() {
    let connection = exhausted(7);
    refuses(
        &connection,
        Event::UpperClose,
        CACHE_LEN,
        Refusal::NumberExhausted,
    );
    refuses(
        &connection,
        Event::UpperSendData(b"block"),
        CACHE_LEN,
        Refusal::NumberExhausted,
    );
    let mut stepped = connection.clone();
    let mut cache = patterned_cache();
    let answer = stepped.step(Event::UpperStartHandshake, &mut cache);
    assert_eq!(answer, Answer::Ignored);
    assert_eq!(stepped, connection);
}

/// Tokens with a margin that is refused, whatever else the host knows of them.
fn with_large_margins() -> impl Iterator<Item = Token> {
    LARGE_MARGINS.into_iter().flat_map(|margin| {
        [true, false].map(|verdict| Token {
            verdict,
            margin,
            ..TOKEN
        })
    })
}

#[test]
fn large_margin() {
    for token in with_large_margins() {
        for (_, event) in judged(token) {
            for state in 0..10 {
                let connection = in_state(state);
                refuses(&connection, event, CACHE_LEN, Refusal::MarginTooLarge);
            }
        }
    }
}

#[test]
fn largest_margin_is_taken() {
    let token = Token {
        margin: MAX_MARGIN,
        ..TOKEN
    };
    for (_, event) in judged(token) {
        for state in 0..10 {
            let mut cache = patterned_cache();
            let answer = in_state(state).step(event, &mut cache);
            assert!(!matches!(answer, Answer::Refused(_)), "{event:?}");
        }
    }
}

#[test]
fn large_margin_and_a_lower_fault() {
    let malformed = Connection::from_raw(raw::Connection { h: 5, ..record(7) });
    for token in with_large_margins() {
        for (state, event) in judged(token) {
            let connection = in_state(state);
            refuses(&connection, event, CACHE_LEN - 1, Refusal::CacheTooShort);
            refuses(&malformed, event, CACHE_LEN, Refusal::NotWellFormed);
            refuses(
                &exhausted(state),
                event,
                CACHE_LEN,
                Refusal::NumberExhausted,
            );
            // Ignored, but for the margin.
            refuses(&exhausted(7), event, CACHE_LEN, Refusal::MarginTooLarge);
        }
        let lists = Lists {
            our_provers: &LONG_LIST,
            ..LISTS
        };
        let hello = Event::ScHello { token, lists };
        refuses(&in_state(1), hello, CACHE_LEN, Refusal::ListTooLong);
    }
}

#[test]
fn of_two_faults_the_lower_number_is_given() {
    let connection = Connection::from_raw(raw::Connection {
        state: 10,
        ..record(0)
    });
    let block = Event::UpperSendData(&LONG_PAYLOAD);
    refuses(&connection, block, 0, Refusal::PayloadTooLong);
    refuses(&connection, Event::UpperClose, 0, Refusal::CacheTooShort);
    let lists = Lists {
        our_provers: &LONG_LIST,
        ..LISTS
    };
    let hello = Event::ScHello {
        token: TOKEN,
        lists,
    };
    refuses(&connection, hello, CACHE_LEN, Refusal::ListTooLong);
}
