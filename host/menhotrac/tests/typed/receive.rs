//! Messages that are received: each does what the event that it is does.

use menhotrac::{
    raw, Answer, Bit, Connection, Event, Lists, Message, OurLists, ReadRefusal, Received, Refusal,
    State, Token, CACHE_LEN, MAX_LIST_LEN, MAX_MARGIN, MAX_PAYLOAD_LEN,
};

use crate::bytes::{message, TOKEN_BYTES};
use crate::support::{
    every_event, handled, in_state, judged, patterned_cache, record, Carried, CARRIED,
    LARGE_MARGINS, LISTS, OURS, TOKEN,
};

const LONG_LIST: [u32; MAX_LIST_LEN + 1] = [3; MAX_LIST_LEN + 1];

const HELLO: Event = Event::ScHello {
    token: TOKEN,
    lists: LISTS,
};

/// Bytes with each fault of the reader.
fn unreadable() -> [(Vec<u8>, ReadRefusal); 5] {
    let seventeen = [b"\x0a\x13\x12\x11", &[1; 17][..]].concat();
    [
        (b"\x4a\x02\x08".to_vec(), ReadRefusal::EndsTooSoon),
        (b"\x12\x00\x00".to_vec(), ReadRefusal::UnexpectedField),
        (b"\x08\x00".to_vec(), ReadRefusal::WrongWireType),
        (b"\x4a\x02\x08\x02".to_vec(), ReadRefusal::NumberTooLarge),
        (seventeen, ReadRefusal::TooManySuites),
    ]
}

/// The events that are messages, each with its bytes.
fn every_message(carried: Carried) -> Vec<(Event, Vec<u8>)> {
    let events = every_event(carried).into_iter();
    let messages: Vec<_> = events
        .filter_map(|event| Some((event, message(event)?)))
        .collect();
    assert_eq!(messages.len(), 9);
    messages
}

/// Checks that bytes received do what the event does: answer, record, cache and part.
fn agrees(record: raw::Connection, event: Event, bytes: &[u8], token: Option<Token>) {
    let mut stepped = Connection::from_raw(record);
    let mut stepped_cache = patterned_cache();
    let mut received = Connection::from_raw(record);
    let mut cache = patterned_cache();
    let answer = received.receive(bytes, token, OURS, &mut cache);
    let wanted = stepped.step(event, &mut stepped_cache);
    assert_eq!(answer, Ok(wanted), "{event:?} in {record:?}");
    if let Ok(Answer::Handled(actions)) = answer {
        let place = bytes.as_ptr_range();
        let part = actions.part.as_ptr_range();
        let within = place.start <= part.start && part.end <= place.end;
        assert!(actions.part.is_empty() || within, "{event:?}");
    }
    assert_eq!(received, stepped, "{event:?} in {record:?}");
    assert_eq!(cache, stepped_cache, "{event:?} in {record:?}");
}

fn agrees_on_all(carried: Carried) {
    for (event, bytes) in every_message(carried) {
        for state in 0..10 {
            for bit in [0, 1] {
                let bits = if (2..9).contains(&state) { bit } else { 0 };
                let record = raw::Connection {
                    next_send_bit: bits,
                    expected_bit: bits,
                    ..record(state)
                };
                agrees(record, event, &bytes, Some(carried.token));
            }
        }
    }
}

#[test]
fn each_message_in_each_state() {
    for bit in [Bit::Zero, Bit::One] {
        agrees_on_all(Carried { bit, ..CARRIED });
    }
    let token = Token {
        verdict: false,
        ..TOKEN
    };
    agrees_on_all(Carried { token, ..CARRIED });
    let expired = Token {
        expiry: TOKEN.now,
        ..TOKEN
    };
    agrees_on_all(Carried {
        token: expired,
        ..CARRIED
    });
}

/// Also those that are refused: by a HELLO or DAT, and by no other message.
#[test]
fn margins() {
    for margin in [1, MAX_MARGIN].into_iter().chain(LARGE_MARGINS) {
        let token = Token { margin, ..TOKEN };
        agrees_on_all(Carried { token, ..CARRIED });
    }
}

#[test]
fn payloads_of_several_lengths() {
    let longest = [7; MAX_PAYLOAD_LEN + 1];
    for len in [0, 1, 127, 128, MAX_PAYLOAD_LEN, MAX_PAYLOAD_LEN + 1] {
        agrees_on_all(Carried {
            payload: &longest[..len],
            ..CARRIED
        });
    }
}

#[test]
fn lists_of_the_peer() {
    let none_in_common = Lists {
        peer_provers: &[8],
        ..LISTS
    };
    let mut last_in_common = [9; MAX_LIST_LEN];
    last_in_common[MAX_LIST_LEN - 1] = 3;
    let full = Lists {
        peer_provers: &last_in_common,
        peer_verifiers: &last_in_common,
        ..LISTS
    };
    let large = Lists {
        peer_verifiers: &[u32::MAX, 7],
        ..LISTS
    };
    for lists in [none_in_common, full, large] {
        agrees_on_all(Carried { lists, ..CARRIED });
    }
}

#[test]
fn token_is_read_of_hello_and_dat_alone() {
    for (event, bytes) in every_message(CARRIED) {
        if matches!(event, Event::ScHello { .. } | Event::ScDat(_)) {
            continue;
        }
        for state in 0..10 {
            agrees(record(state), event, &bytes, None);
        }
    }
}

#[test]
fn hello_and_dat_without_a_token_lock() {
    for (state, event) in judged(TOKEN) {
        let mut connection = in_state(state);
        let mut cache = patterned_cache();
        let bytes = message(event).unwrap();
        let answer = connection.receive(&bytes, None, OURS, &mut cache);
        assert_eq!(handled(answer.unwrap()).message, Some(Message::Close));
        assert_eq!(connection.state(), Some(State::ClosedLocked));
    }
}

#[test]
fn token_to_check() {
    for (event, bytes) in every_message(CARRIED) {
        let token = Received::read(&bytes).unwrap().token();
        match event {
            Event::ScHello { .. } | Event::ScDat(_) => assert_eq!(token, Some(TOKEN_BYTES)),
            _ => assert_eq!(token, None),
        }
    }
}

#[test]
fn part_is_of_the_bytes() {
    let bytes = b"\x42\x09\x10\x00\x0a\x05block";
    let mut cache = patterned_cache();
    let answer = in_state(7).receive(bytes, None, OURS, &mut cache);
    let actions = handled(answer.unwrap());
    assert!(actions.deliver);
    assert_eq!(actions.part, b"block");
    assert_eq!(actions.part.as_ptr(), bytes[6..].as_ptr());
}

/// Checks that a message is refused by the step, with record and cache unchanged.
fn refuses(record: raw::Connection, event: Event, lists: OurLists, cache_len: usize) -> Refusal {
    let mut connection = Connection::from_raw(record);
    let mut cache = patterned_cache();
    let bytes = message(event).unwrap();
    let answer = connection.receive(&bytes, Some(TOKEN), lists, &mut cache[..cache_len]);
    let Ok(Answer::Refused(refusal)) = answer else {
        panic!("a refusal was expected: {answer:?}");
    };
    assert_eq!(connection.raw(), record);
    assert_eq!(cache, patterned_cache());
    refusal
}

#[test]
fn refusals_of_the_step() {
    let payload = &[0; MAX_PAYLOAD_LEN + 1];
    let long = Event::ScRaProver(payload);
    let refusal = refuses(record(2), long, OURS, CACHE_LEN);
    assert_eq!(refusal, Refusal::PayloadTooLong);
    let refusal = refuses(record(1), HELLO, OURS, CACHE_LEN - 1);
    assert_eq!(refusal, Refusal::CacheTooShort);
    for (verifiers, provers) in [(&LONG_LIST[..], &[][..]), (&[], &LONG_LIST)] {
        let lists = OurLists { verifiers, provers };
        let refusal = refuses(record(1), HELLO, lists, CACHE_LEN);
        assert_eq!(refusal, Refusal::ListTooLong);
    }
    let malformed = raw::Connection { h: 0, ..record(1) };
    let refusal = refuses(malformed, HELLO, OURS, CACHE_LEN);
    assert_eq!(refusal, Refusal::NotWellFormed);
    let exhausted = raw::Connection {
        handled: u32::MAX,
        ..record(1)
    };
    let refusal = refuses(exhausted, HELLO, OURS, CACHE_LEN);
    assert_eq!(refusal, Refusal::NumberExhausted);
}

/// Also where the step would find faults: what is no message reaches no step.
#[test]
fn refusals_of_the_reader_come_first() {
    let malformed = raw::Connection {
        state: 10,
        ..record(0)
    };
    let token = Token {
        margin: MAX_MARGIN + 1,
        ..TOKEN
    };
    for (bytes, refusal) in unreadable() {
        for record in [record(1), record(8), malformed] {
            for cache_len in [0, CACHE_LEN] {
                let mut connection = Connection::from_raw(record);
                let mut cache = patterned_cache();
                let lent = &mut cache[..cache_len];
                let answer = connection.receive(&bytes, Some(token), OURS, lent);
                assert_eq!(answer, Err(refusal), "{bytes:02x?}");
                assert_eq!(connection.raw(), record);
                assert_eq!(cache, patterned_cache());
            }
        }
    }
}

/// What a host does that gives up on a peer whose bytes are no message.
#[test]
fn unreadable_bytes_can_end_the_connection() {
    let mut connection = in_state(7);
    let mut cache = patterned_cache();
    let answer = match connection.receive(b"\x08\x00", None, OURS, &mut cache) {
        Ok(answer) => answer,
        Err(_) => connection.step(Event::ScError, &mut cache),
    };
    assert_eq!(handled(answer).message, None);
    assert_eq!(connection.state(), Some(State::ClosedLocked));
}

/// `TOKEN` in numbers.
const FLAT_TOKEN: raw::Token = raw::Token {
    verdict: 1,
    margin: 0,
    expiry: TOKEN.expiry,
    now: TOKEN.now,
};

/// The flat call, with marked actions so that it shows what is written.
fn flat(record: raw::Connection, bytes: &[u8], token: raw::Token) -> (raw::Receipt, raw::Actions) {
    let mut connection = record;
    let mut cache = patterned_cache();
    let mut actions = raw::Actions {
        message: 77,
        payload_len: 77,
        ..raw::Actions::default()
    };
    let receipt = raw::receive(
        &mut connection,
        bytes,
        &token,
        &OURS,
        &mut cache,
        &mut actions,
    );
    if receipt.answer != raw::HANDLED {
        assert_eq!(connection, record);
        assert_eq!(actions, raw::Actions::default());
    }
    assert_eq!(cache, patterned_cache());
    (receipt, actions)
}

/// Checks that a token is refused in each state, and read of HELLO and DAT alone; and that the fault of a lower number
/// is given.
fn refuses_token(token: raw::Token, refusal: u32) {
    for (event, bytes) in every_message(CARRIED) {
        let with_token = matches!(event, Event::ScHello { .. } | Event::ScDat(_));
        for state in 0..10 {
            let (receipt, _) = flat(record(state), &bytes, token);
            assert_eq!(receipt.answer == refusal, with_token, "{event:?}");
        }
    }
    let exhausted = raw::Connection {
        handled: u32::MAX,
        ..record(1)
    };
    let (receipt, _) = flat(exhausted, &message(HELLO).unwrap(), token);
    assert_eq!(receipt.answer, Refusal::NumberExhausted.number());
}

#[test]
fn wrong_verdict_is_refused() {
    for verdict in [2, u32::MAX] {
        let token = raw::Token {
            verdict,
            ..FLAT_TOKEN
        };
        refuses_token(token, raw::WRONG_VERDICT);
    }
}

/// Also where the verdict is wrong.
#[test]
fn large_margin_is_refused() {
    for margin in LARGE_MARGINS {
        for verdict in 0..=2 {
            let token = raw::Token {
                verdict,
                margin,
                ..FLAT_TOKEN
            };
            refuses_token(token, Refusal::MarginTooLarge.number());
        }
    }
}

/// The place is told wherever the bytes are a message, also where that is ignored or refused.
#[test]
fn place_is_told_unless_the_bytes_are_refused() {
    let dat = message(Event::ScDat(TOKEN)).unwrap();
    for (state, verdict, margin, answer) in [
        (6, 1, 0, raw::HANDLED),
        (7, 1, 0, raw::IGNORED),
        (6, 1, MAX_MARGIN + 1, Refusal::MarginTooLarge.number()),
        (6, 2, 0, raw::WRONG_VERDICT),
    ] {
        let token = raw::Token {
            verdict,
            margin,
            ..FLAT_TOKEN
        };
        let (receipt, _) = flat(record(state), &dat, token);
        assert_eq!(receipt, raw::Receipt { answer, place: 4 });
    }
    for (bytes, refusal) in unreadable() {
        let (receipt, _) = flat(record(7), &bytes, FLAT_TOKEN);
        let answer = refusal.number();
        assert_eq!(receipt, raw::Receipt { answer, place: 0 });
    }
}
