//! "Refusal numbers": refusal 9 of request #104, and the order of all nine.

use model::{carries_token, code, fault, step, Answer, Call, Edition, Event, Lists, Record, Sheet};

/// What each edition gives.
type Results = [(Answer, Record, Sheet); 2];

fn results(record: &Record, call: &Call, cache_len: usize) -> Results {
    Edition::ALL.map(|edition| step(edition, record, call, &mut vec![0; cache_len]))
}

/// "It returns its number, an empty order sheet and the same record."
fn refused(number: u32, record: &Record) -> Results {
    [(Answer::Refused(number), *record, Sheet::default()); 2]
}

/// A well-formed record in each of the states 0 to 9; what is on has tag 1.
fn records() -> [Record; 10] {
    std::array::from_fn(|state| {
        let one_in = |states: &[usize]| u32::from(states.contains(&state));
        Record {
            state: state as u32,
            ack_flag: one_in(&[8]),
            number: u32::from(state != 0),
            h: one_in(&[1, 5, 6]),
            prover: one_in(&[2, 3, 5]),
            verifier: one_in(&[2, 4]),
            dat: one_in(&[2, 3, 4, 7, 8]),
            ra: one_in(&[3, 7, 8]),
            ack: one_in(&[8]),
            ..Record::fresh()
        }
    })
}

fn with_margin(code: u32, margin: u32) -> Call<'static> {
    Call {
        event: Event {
            code,
            tag: 1,
            margin,
            ..Event::default()
        },
        ..Call::default()
    }
}

#[test]
fn margin_limit_in_every_state() {
    for record in records() {
        for code in [code::SC_HELLO, code::SC_DAT] {
            let came = |margin| results(&record, &with_margin(code, margin), 4_096);
            let taken = match (code, record.state) {
                (code::SC_HELLO, 1) | (code::SC_DAT, 5 | 6) => Answer::Handled,
                _ => Answer::Ignored,
            };
            for margin in [0, 300] {
                let answers = came(margin).map(|result| result.0);
                assert_eq!(answers, [taken; 2], "event {code}");
            }
            for margin in [301, u32::MAX] {
                assert_eq!(came(margin), refused(9, &record), "event {code}");
            }
        }
    }
}

#[test]
fn margin_of_other_events_is_not_read() {
    for record in records() {
        for code in (0..=24).filter(|&code| !carries_token(code)) {
            let came = |margin| results(&record, &with_margin(code, margin), 4_096);
            assert_eq!(came(301), came(0), "event {code}");
            assert_eq!(came(u32::MAX), came(0), "event {code}");
        }
    }
}

/// A call with the faults of 1, 2, 3, 4, 6 and 9 that its code can have.
fn faulty(code: u32) -> Call<'static> {
    let mut call = with_margin(code, 301);
    (call.event.timer, call.event.bit) = (3, 2);
    call.payload = &[0; 4_097];
    call.lists.our_provers = &[3; 17];
    call
}

#[test]
fn lowest_fault_is_given() {
    let [greeted, missing] = [1, 5].map(|state| Record {
        number: u32::MAX,
        ..records()[state]
    });
    let malformed = |record| Record {
        expected_bit: 2,
        ..record
    };
    let (hello, dat) = (faulty(code::SC_HELLO), faulty(code::SC_DAT));
    let short_lists = Call {
        lists: Lists::default(),
        ..hello
    };
    for (number, record, call, cache_len) in [
        (1, malformed(greeted), faulty(24), 4_095),
        (2, malformed(greeted), faulty(20), 4_095),
        (3, malformed(greeted), faulty(18), 4_095),
        (4, malformed(greeted), faulty(2), 4_095),
        (5, malformed(greeted), hello, 4_095),
        (5, malformed(missing), dat, 4_095),
        (6, malformed(greeted), hello, 4_096),
        (7, malformed(greeted), short_lists, 4_096),
        (7, malformed(missing), dat, 4_096),
        (8, greeted, short_lists, 4_096),
        (8, missing, dat, 4_096),
        (9, greeted, dat, 4_096),
        (9, missing, short_lists, 4_096),
    ] {
        assert_eq!(results(&record, &call, cache_len), refused(number, &record));
        let nine = fault(9, Edition::Mended, &record, &call, cache_len);
        assert_eq!(nine, carries_token(call.event.code));
    }
}
