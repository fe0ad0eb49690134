//! The step: one call answered.

use crate::call::Call;
use crate::edition::Edition;
use crate::orders::Sheet;
use crate::record::Record;
use crate::refusal::refusal;
use crate::table::{look_up, Row};
use crate::timers::Timer;
use crate::turn::{Change, Turn};

/// What a call is answered with.
#[derive(Clone, Copy, Debug, PartialEq, Eq)]
pub enum Answer {
    Handled,
    Ignored,
    Refused(u32),
}

/// Answers one call. "Event 2 alone writes the cache."
pub fn step(
    edition: Edition,
    record: &Record,
    call: &Call,
    cache: &mut [u8],
) -> (Answer, Record, Sheet) {
    if let Some(number) = refusal(edition, record, call, cache.len()) {
        return (Answer::Refused(number), *record, Sheet::default());
    }
    let Some((row, to)) = look_up(record, call) else {
        return (Answer::Ignored, *record, Sheet::default());
    };
    if row == Row::SendData {
        cache[..call.payload.len()].copy_from_slice(call.payload);
    }
    let turn = Turn {
        edition,
        record,
        call,
        row,
        to,
    };
    (Answer::Handled, record_after(&turn), Sheet::of(&turn))
}

/// "A handled event raises the number by 1, and whatever it starts carries the
/// new number as tag."
fn record_after(turn: &Turn) -> Record {
    let number = turn.record.number + 1;
    if turn.locks() {
        return Record::locked(number);
    }
    let tag = |timer: Timer| match turn.change(timer) {
        Change::Start => number,
        Change::End => 0,
        Change::Keep => timer.tag(turn.record),
    };
    let mut after = Record {
        state: turn.to,
        number,
        h: tag(Timer::H),
        prover: tag(Timer::Hp),
        verifier: tag(Timer::Hv),
        dat: tag(Timer::Dat),
        ra: tag(Timer::Ra),
        ack: tag(Timer::Ack),
        ..*turn.record
    };
    move_block(turn, &mut after);
    after
}

/// What events 2, 18 and 19 do to the flag, the length and the bits.
fn move_block(turn: &Turn, after: &mut Record) {
    match turn.row {
        Row::SendData => {
            after.ack_flag = 1;
            after.cached_len = turn.call.payload.len() as u32;
        }
        Row::Data => after.expected_bit = 1 - after.expected_bit,
        Row::Ack => {
            after.ack_flag = 0;
            after.cached_len = 0;
            after.next_send_bit = 1 - after.next_send_bit;
        }
        _ => {}
    }
}
