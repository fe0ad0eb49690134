//! "The boot run and its neighbours", run on the model.

use model::{
    code, message, part, seconds_left, timer, transitions, Answer, Call, Edition, Event, Lists,
    Record, Sheet, MOST_SUITES,
};

fn zeros() -> [u8; 4_096] {
    [0; 4_096]
}

const LISTS: Lists = Lists {
    our_verifiers: &[7, 3],
    peer_provers: &[3, 7],
    peer_verifiers: &[3],
    our_provers: &[3, 7],
};

fn event(code: u32) -> Event {
    Event {
        code,
        ..Event::default()
    }
}

fn tagged(code: u32, tag: u32) -> Event {
    Event { tag, ..event(code) }
}

fn hello(expiry: i64, now: i64) -> Event {
    Event {
        verdict: true,
        expiry,
        now,
        ..event(code::SC_HELLO)
    }
}

fn call(event: Event, payload: &[u8]) -> Call<'_> {
    Call {
        event,
        payload,
        lists: LISTS,
    }
}

/// "No case of the boot run changes": the step of both editions.
fn step(record: &Record, call: &Call, cache: &mut [u8]) -> (Answer, Record, Sheet) {
    let printed = model::step(Edition::Printed, record, call, &mut cache.to_vec());
    let mended = model::step(Edition::Mended, record, call, cache);
    assert_eq!(mended, printed);
    mended
}

/// Gives the events to a fresh record, each with a payload of five bytes.
fn run(events: &[Event], cache: &mut [u8]) -> Vec<(Answer, Record, Sheet)> {
    let mut record = Record::fresh();
    let mut results = Vec::new();
    for &event in events {
        let result = step(&record, &call(event, b"block"), cache);
        record = result.1;
        results.push(result);
    }
    results
}

fn boot_events() -> [Event; 10] {
    [
        event(code::UPPER_START_HANDSHAKE),
        hello(1_060, 1_000),
        tagged(code::RA_PROVER_OK, 2),
        tagged(code::RA_VERIFIER_OK, 1),
        tagged(code::RA_VERIFIER_OK, 2),
        event(code::UPPER_SEND_DATA),
        event(code::SC_RE_RA),
        tagged(code::RA_PROVER_OK, 2),
        event(code::SC_ACK),
        tagged(code::RA_PROVER_OK, 6),
    ]
}

/// The record in state 7 that the boot run comes by, and one in state 8.
fn established() -> (Record, Record) {
    let results = run(&boot_events(), &mut zeros());
    (results[4].1, results[5].1)
}

#[test]
fn boot_run_prints_the_papers_ten_lines() {
    let results = run(&boot_events(), &mut zeros());
    let lines: Vec<_> = results.iter().map(|r| (r.1.state, r.1.number)).collect();
    let paper = [
        (1, 1),
        (2, 2),
        (4, 3),
        (4, 3),
        (7, 4),
        (8, 5),
        (3, 6),
        (3, 6),
        (3, 7),
        (7, 8),
    ];
    assert_eq!(lines, paper);
    for (index, (answer, _, sheet)) in results.iter().enumerate() {
        let ignored = [3, 7].contains(&index);
        assert_eq!(*answer == Answer::Ignored, ignored);
        assert_eq!(*sheet == Sheet::default(), ignored || index == 8);
    }
}

#[test]
fn boot_run_opens_with_suites_and_token_time() {
    let sheet = run(&boot_events(), &mut zeros())[1].2;
    assert_eq!((sheet.verifier_suite, sheet.prover_suite), (7, 3));
    assert_eq!((sheet.dat, sheet.dat_seconds), (timer::START, 60));
}

#[test]
fn block_is_written_sent_and_repeated() {
    let mut cache = zeros();
    cache[5] = 9;
    let sheet = run(&boot_events()[..6], &mut cache)[5].2;
    assert_eq!(cache[..6], *b"block\x09");
    assert_eq!(part(&sheet, b"other", &cache), b"block");
    let repeat = tagged(code::ACK_TIMEOUT, 5);
    let (_, record, again) = step(&established().1, &call(repeat, b"other"), &mut cache);
    assert_eq!((again.message, again.bit), (message::DATA, sheet.bit));
    assert_eq!(part(&again, b"other", &cache), b"block");
    assert_eq!(record.ack, 6);
    assert_eq!(part(&again, b"other", &cache[..4]), b"");
}

#[test]
fn case_11_an_ended_token_locks_with_close() {
    let greeting = event(code::UPPER_START_HANDSHAKE);
    let results = run(&[greeting, hello(1_000, 1_000)], &mut zeros());
    let (answer, record, sheet) = results[1];
    assert_eq!(seconds_left(1_000, 1_000, 0), Ok(0));
    assert_eq!(answer, Answer::Handled);
    assert_eq!((record.state, record.number), (9, 2));
    assert_eq!((sheet.message, sheet.h), (message::CLOSE, timer::CANCEL));
}

#[test]
fn case_12_the_furthest_times_are_clamped() {
    assert_eq!(seconds_left(i64::MAX, i64::MIN, 0), Ok(86_400));
    assert_eq!(seconds_left(i64::MIN, i64::MAX, 0), Ok(-86_400));
}

/// The boot run's token, given with a margin by the hello and, after DAT has run
/// out, by event 13.
#[test]
fn margin_shortens_the_tokens_time() {
    let [greeting, hello, ..] = boot_events();
    let dat = Event {
        code: code::SC_DAT,
        ..hello
    };
    let timeout = tagged(code::DAT_TIMEOUT, 2);
    for (margin, state, sent, seconds) in [
        (0, 2, message::NONE, 60),
        (10, 2, message::NONE, 50),
        (59, 2, message::NONE, 1),
        (60, 9, message::CLOSE, 0),
        (300, 9, message::CLOSE, 0),
    ] {
        let opening = [greeting, Event { margin, ..hello }];
        let renewal = [greeting, hello, timeout, Event { margin, ..dat }];
        for events in [&opening[..], &renewal] {
            let (_, record, sheet) = run(events, &mut zeros())[events.len() - 1];
            let came = (record.state, sheet.message, sheet.dat_seconds);
            assert_eq!(came, (state, sent, seconds), "{events:?}");
        }
    }
}

#[test]
fn payload_limit() {
    let send = |len: usize| {
        let payload = vec![1; len];
        let block = call(event(code::UPPER_SEND_DATA), &payload);
        step(&established().0, &block, &mut zeros())
    };
    for len in [0, 4_096] {
        let (answer, record, sheet) = send(len);
        assert_eq!(answer, Answer::Handled);
        assert_eq!((record.cached_len, sheet.len), (len as u32, len as u32));
    }
    assert_eq!(send(4_097).0, Answer::Refused(4));
}

#[test]
fn cache_suite_and_code_limits() {
    let fresh = Record::fresh();
    let answer = |call: &Call, cache_len| step(&fresh, call, &mut zeros()[..cache_len]).0;
    let greeting = call(event(code::UPPER_START_HANDSHAKE), b"");
    assert_eq!(answer(&greeting, 4_095), Answer::Refused(5));
    let mut crowded = call(hello(1_060, 1_000), b"");
    crowded.lists.our_provers = &[3; MOST_SUITES + 1];
    assert_eq!(answer(&crowded, 4_096), Answer::Refused(6));
    assert_eq!(answer(&call(event(24), b""), 4_095), Answer::Refused(1));
}

#[test]
fn ninety_four_transitions_can_occur() {
    let mut all = transitions();
    assert_eq!(all.len(), 94);
    all.sort_unstable();
    all.dedup();
    assert_eq!(all.len(), 94);
}
