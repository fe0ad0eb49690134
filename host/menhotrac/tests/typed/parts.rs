//! The payload part: the bytes, and that they are a part of what was lent.

use menhotrac::{
    raw, Actions, Answer, Bit, Connection, DriverOrder, Event, Message, Tag, MAX_PAYLOAD_LEN,
};

use crate::support::{every_event, handled, in_state, patterned_cache, record, Carried, CARRIED};

const PAYLOAD: &[u8] = b"payload";

/// Checks the orders of a call whose part is the event's payload itself.
fn of_event(state: usize, event: Event, expected: Actions) {
    let mut cache = patterned_cache();
    let actions = handled(in_state(state).step(event, &mut cache));
    assert_eq!(
        actions,
        Actions {
            tag: Tag(10),
            part: PAYLOAD,
            ..expected
        }
    );
    assert_eq!(actions.part.as_ptr(), PAYLOAD.as_ptr());
    assert_eq!(cache, patterned_cache());
}

#[test]
fn sent_block_is_of_the_cache() {
    let mut cache = patterned_cache();
    let mut expected = cache;
    expected[..PAYLOAD.len()].copy_from_slice(PAYLOAD);
    let lent = cache.as_ptr_range().start;
    let actions = handled(in_state(7).step(Event::UpperSendData(PAYLOAD), &mut cache));
    assert_eq!(actions.message, Some(Message::Data(Bit::Zero)));
    assert_eq!(actions.part, PAYLOAD);
    assert_eq!(actions.part.as_ptr(), lent);
    assert_eq!(cache, expected);
}

#[test]
fn repeated_block_is_of_the_cache() {
    let mut cache = patterned_cache();
    let lent = cache.as_ptr_range().start;
    let actions = handled(in_state(8).step(Event::AckTimeout(Tag(6)), &mut cache));
    assert_eq!(actions.message, Some(Message::Data(Bit::Zero)));
    assert_eq!(actions.part, &patterned_cache()[..5]);
    assert_eq!(actions.part.as_ptr(), lent);
    assert_eq!(cache, patterned_cache());
}

#[test]
fn delivered_block_is_of_the_event() {
    for state in [7, 8] {
        let event = Event::ScData {
            bit: Bit::Zero,
            payload: PAYLOAD,
        };
        let message = Some(Message::Ack(Bit::Zero));
        of_event(
            state,
            event,
            Actions {
                message,
                deliver: true,
                ..Actions::default()
            },
        );
    }
}

#[test]
fn the_other_bit_is_sent_and_acknowledged() {
    let record = raw::Connection {
        next_send_bit: 1,
        expected_bit: 1,
        ..record(7)
    };
    let mut connection = Connection::from_raw(record);
    let mut cache = patterned_cache();
    let actions = handled(connection.step(Event::UpperSendData(PAYLOAD), &mut cache));
    assert_eq!(actions.message, Some(Message::Data(Bit::One)));
    let event = Event::ScData {
        bit: Bit::One,
        payload: PAYLOAD,
    };
    let actions = handled(connection.step(event, &mut cache));
    assert_eq!(actions.message, Some(Message::Ack(Bit::One)));
}

/// Given in a state, the event sends its payload in this message and orders nothing else.
fn sends(state: usize, event: Event, message: Message) {
    let message = Some(message);
    let actions = Actions {
        message,
        ..Actions::default()
    };
    of_event(state, event, actions);
}

#[test]
fn messages_of_the_drivers_are_sent() {
    let (tag, payload) = (Tag(3), PAYLOAD);
    let event = Event::RaVerifierMsg { tag, payload };
    sends(4, event, Message::RaVerifier);
    let (tag, payload) = (Tag(2), PAYLOAD);
    let event = Event::RaProverMsg { tag, payload };
    sends(3, event, Message::RaProver);
}

#[test]
fn message_of_the_peers_prover_goes_to_the_verifier() {
    let verifier = Some(DriverOrder::Forward);
    let expected = Actions {
        verifier,
        ..Actions::default()
    };
    of_event(4, Event::ScRaProver(PAYLOAD), expected);
}

#[test]
fn message_of_the_peers_verifier_goes_to_the_prover() {
    let prover = Some(DriverOrder::Forward);
    let expected = Actions {
        prover,
        ..Actions::default()
    };
    of_event(3, Event::ScRaVerifier(PAYLOAD), expected);
}

#[test]
fn shortest_and_longest_block_are_sent() {
    for len in [0, MAX_PAYLOAD_LEN] {
        let block = [9; MAX_PAYLOAD_LEN];
        let mut cache = patterned_cache();
        let mut connection = in_state(7);
        let actions = handled(connection.step(Event::UpperSendData(&block[..len]), &mut cache));
        assert_eq!(actions.part, &block[..len]);
        assert_eq!(connection.raw().cached_len as usize, len);
    }
}

#[test]
fn longer_cache_is_taken() {
    let mut cache = [3; MAX_PAYLOAD_LEN + 1];
    let actions = handled(in_state(8).step(Event::AckTimeout(Tag(6)), &mut cache));
    assert_eq!(actions.part, [3; 5]);
}

#[test]
fn other_events_have_an_empty_part() {
    let without = [0, 1, 3, 4, 5, 7, 8, 10, 11, 12, 13, 14, 17, 19, 20, 21, 22];
    for state in 0..10 {
        for tag in 1..=6 {
            let events = every_event(Carried {
                tag: Tag(tag),
                ..CARRIED
            });
            for code in without {
                let mut cache = patterned_cache();
                let mut connection = in_state(state);
                let answer = connection.step(events[code], &mut cache);
                assert!(part_is_empty(answer), "{answer:?}");
            }
        }
    }
}

fn part_is_empty(answer: Answer) -> bool {
    match answer {
        Answer::Handled(actions) => actions.part.is_empty(),
        _ => true,
    }
}
