//! Seconds left, and the tokens of hello and DAT.

use menhotrac::{
    raw, seconds_left, Actions, DatTimerOrder, DriverOrder, Event, Message, Refusal, State,
    TimerOrder, Timers, Token, MAX_MARGIN,
};

use crate::support::{handled, in_state, judged, patterned_cache, LARGE_MARGINS, TOKEN};

/// Expiry, now, margin, and the seconds left.
const TIMES: [(i64, i64, u32, i64); 18] = [
    (1_060, 1_000, 0, 60),
    (1_001, 1_000, 0, 1),
    (1_000, 1_000, 0, 0),
    (1_000, 1_060, 0, -60),
    (i64::MAX, i64::MIN, 0, 86_400),
    (i64::MIN, i64::MAX, 0, -86_400),
    (1_060, 1_000, 1, 59),
    (1_060, 1_000, 59, 1),
    (1_060, 1_000, 60, 0),
    (1_300, 1_000, 299, 1),
    (1_300, 1_000, MAX_MARGIN, 0),
    (1_301, 1_000, MAX_MARGIN, 1),
    (87_699, 1_000, MAX_MARGIN, 86_399),
    (87_701, 1_000, MAX_MARGIN, 86_400),
    (1_000, 87_099, MAX_MARGIN, -86_399),
    (1_000, 87_101, MAX_MARGIN, -86_400),
    (i64::MAX, i64::MIN, MAX_MARGIN, 86_400),
    (i64::MIN, i64::MAX, MAX_MARGIN, -86_400),
];

/// Times at the ends of 64 bits, where a difference or the margin could wrap.
const ENDS: [i64; 9] = [
    i64::MIN,
    i64::MIN + 1,
    i64::MIN + 301,
    -1,
    0,
    1,
    i64::MAX - 301,
    i64::MAX - 1,
    i64::MAX,
];

#[test]
fn exact_and_clamped() {
    for (expiry, now, margin, left) in TIMES {
        assert_eq!(seconds_left(expiry, now, margin), Ok(left));
    }
}

#[test]
fn exact_at_both_ends() {
    for expiry in ENDS {
        for now in ENDS {
            for margin in [0, 1, 299, MAX_MARGIN] {
                let exact = i128::from(expiry) - i128::from(now) - i128::from(margin);
                let left = exact.clamp(-86_400, 86_400) as i64;
                assert_eq!(seconds_left(expiry, now, margin), Ok(left));
            }
        }
    }
}

#[test]
fn large_margin_is_refused() {
    let refused = raw::TimeLeft {
        refusal: 9,
        seconds: 0,
    };
    for expiry in ENDS {
        for now in ENDS {
            for margin in LARGE_MARGINS {
                let left = seconds_left(expiry, now, margin);
                assert_eq!(left, Err(Refusal::MarginTooLarge));
                assert_eq!(raw::seconds_left(expiry, now, margin), refused);
            }
        }
    }
}

/// Checks that a bad token locks with CLOSE, at the hello and at a token's return.
fn locks(token: Token) {
    for (state, event) in judged(token) {
        let mut connection = in_state(state);
        let mut cache = patterned_cache();
        let actions = handled(connection.step(event, &mut cache));
        assert_eq!(actions.message, Some(Message::Close));
        assert_eq!(actions.timers.dat, None);
        assert_eq!(connection.state(), Some(State::ClosedLocked));
    }
}

#[test]
fn bad_tokens_lock() {
    locks(Token {
        verdict: false,
        ..TOKEN
    });
    locks(Token {
        expiry: TOKEN.now,
        ..TOKEN
    });
    locks(Token {
        margin: MAX_MARGIN,
        ..TOKEN
    });
    locks(Token {
        expiry: i64::MIN,
        now: i64::MAX,
        ..TOKEN
    });
}

/// Checks that a good token starts the DAT timer, at the hello and at a token's return.
fn starts_the_dat_timer(token: Token, seconds: u32) {
    for (state, event) in judged(token) {
        let mut cache = patterned_cache();
        let actions = handled(in_state(state).step(event, &mut cache));
        let start = DatTimerOrder::Start { seconds };
        assert_eq!(actions.timers.dat, Some(start), "{event:?}");
    }
}

#[test]
fn dat_timer_runs_for_the_seconds_left() {
    for (expiry, now, margin, left) in TIMES {
        let token = Token {
            verdict: true,
            margin,
            expiry,
            now,
        };
        match u32::try_from(left) {
            Ok(0) | Err(_) => locks(token),
            Ok(seconds) => starts_the_dat_timer(token, seconds),
        }
    }
}

#[test]
fn good_token_returned_starts_the_verifier() {
    let token = Token {
        expiry: i64::MAX,
        now: i64::MIN,
        ..TOKEN
    };
    let mut connection = in_state(6);
    let mut cache = patterned_cache();
    let actions = handled(connection.step(Event::ScDat(token), &mut cache));
    let expected = Actions {
        tag: actions.tag,
        verifier: Some(DriverOrder::Start),
        timers: Timers {
            h: Some(TimerOrder::Cancel),
            hv: Some(TimerOrder::Start),
            dat: Some(DatTimerOrder::Start { seconds: 86_400 }),
            ..Timers::default()
        },
        ..Actions::default()
    };
    assert_eq!(actions, expected);
    assert_eq!(actions.tag.0, connection.handled());
    assert_eq!(connection.tags().verifier, Some(actions.tag));
}

#[test]
fn locking_cancels_the_dat_timer() {
    let mut cache = patterned_cache();
    let actions = handled(in_state(7).step(Event::ScError, &mut cache));
    assert_eq!(actions.message, None);
    assert_eq!(actions.timers.dat, Some(DatTimerOrder::Cancel));
}
