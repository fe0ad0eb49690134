//! The numbers of every enum, both ways.

use menhotrac::{
    Bit, DriverOrder, HandshakeTimer, Message, ReadRefusal, Refusal, State, TimerOrder,
};

use crate::support::{every_event, CARRIED};

/// Numbers far beyond every enum's.
const FAR: [u32; 4] = [41, 100, 255, u32::MAX];

/// Checks that an enum has just these cases, numbered on from the first number.
macro_rules! assert_numbered {
    ($name:ident, $first:literal, $cases:expr) => {
        let cases = $cases;
        let end = $first + cases.len() as u32;
        for (at, case) in cases.into_iter().enumerate() {
            let number = $first + at as u32;
            assert_eq!(case.number(), number);
            assert_eq!($name::from_number(number), Some(case));
        }
        for number in (0..$first).chain(end..end + 64).chain(FAR) {
            assert_eq!($name::from_number(number), None, "{number}");
        }
    };
}

#[test]
fn states() {
    let cases = [
        State::ClosedUnlocked,
        State::WaitForHello,
        State::WaitForRa,
        State::WaitForRaProver,
        State::WaitForRaVerifier,
        State::WaitForDatAndRa,
        State::WaitForDatAndRaVerifier,
        State::Established,
        State::WaitForAck,
        State::ClosedLocked,
    ];
    assert_numbered!(State, 0, cases);
}

#[test]
fn bits() {
    assert_numbered!(Bit, 0, [Bit::Zero, Bit::One]);
}

#[test]
fn handshake_timers() {
    let cases = [HandshakeTimer::H, HandshakeTimer::Hp, HandshakeTimer::Hv];
    assert_numbered!(HandshakeTimer, 0, cases);
}

#[test]
fn driver_orders() {
    let cases = [DriverOrder::Start, DriverOrder::Stop, DriverOrder::Forward];
    assert_numbered!(DriverOrder, 1, cases);
}

#[test]
fn timer_orders() {
    assert_numbered!(TimerOrder, 1, [TimerOrder::Start, TimerOrder::Cancel]);
}

#[test]
fn refusals() {
    let cases = [
        Refusal::UnknownCode,
        Refusal::UnknownTimer,
        Refusal::WrongBit,
        Refusal::PayloadTooLong,
        Refusal::CacheTooShort,
        Refusal::ListTooLong,
        Refusal::NotWellFormed,
        Refusal::NumberExhausted,
        Refusal::MarginTooLarge,
    ];
    assert_numbered!(Refusal, 1, cases);
    for (at, refusal) in cases.into_iter().enumerate() {
        for other in &cases[..at] {
            assert_ne!(refusal.to_string(), other.to_string());
        }
    }
}

#[test]
fn read_refusals() {
    let cases = [
        ReadRefusal::EndsTooSoon,
        ReadRefusal::UnexpectedField,
        ReadRefusal::WrongWireType,
        ReadRefusal::NumberTooLarge,
        ReadRefusal::TooManySuites,
    ];
    assert_numbered!(ReadRefusal, 21, cases);
    for (at, refusal) in cases.into_iter().enumerate() {
        for other in &cases[..at] {
            assert_ne!(refusal.to_string(), other.to_string());
        }
    }
}

#[test]
fn messages() {
    for bit in [Bit::Zero, Bit::One] {
        let cases = [
            Message::Hello,
            Message::Close,
            Message::DatExpired,
            Message::Dat,
            Message::ReRa,
            Message::RaProver,
            Message::RaVerifier,
            Message::Data(bit),
            Message::Ack(bit),
        ];
        for (number, message) in (1..).zip(cases) {
            assert_eq!(message.number(), number);
            assert_eq!(Message::from_number(number, bit), Some(message));
        }
        for number in [0].into_iter().chain(10..74).chain(FAR) {
            assert_eq!(Message::from_number(number, bit), None, "{number}");
        }
    }
}

#[test]
fn event_codes() {
    for (code, event) in (0..).zip(every_event(CARRIED)) {
        assert_eq!(event.code(), code, "{event:?}");
    }
}
