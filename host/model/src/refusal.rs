//! "Refusal numbers", and refusal 9 of request #104.

use crate::call::{carries_bit, carries_payload, carries_token, code, Call};
use crate::edition::Edition;
use crate::record::{Record, MOST_BYTES};
use crate::{table, token};

/// Whether the arguments have the fault of refusal `number`, "other than 7 and 8".
pub(crate) fn argument_fault(number: u32, call: &Call, cache_len: usize) -> bool {
    let event = &call.event;
    match number {
        1 => event.code > 23,
        2 => event.code == code::HANDSHAKE_TIMEOUT && event.timer > 2,
        3 => carries_bit(event.code) && event.bit > 1,
        4 => carries_payload(event.code) && call.payload.len() > MOST_BYTES as usize,
        5 => cache_len < MOST_BYTES as usize,
        6 => event.code == code::SC_HELLO && call.lists.too_long(),
        9 => carries_token(event.code) && token::too_large(event.margin),
        _ => false,
    }
}

/// Whether the fault of refusal `number` is present.
pub fn fault(
    number: u32,
    edition: Edition,
    record: &Record,
    call: &Call,
    cache_len: usize,
) -> bool {
    match number {
        7 => !record.well_formed(edition),
        8 => record.number == u32::MAX && table::look_up(record, call).is_some(),
        _ => argument_fault(number, call, cache_len),
    }
}

/// "The lowest whose fault is present is given, else none."
pub fn refusal(edition: Edition, record: &Record, call: &Call, cache_len: usize) -> Option<u32> {
    (1..=9).find(|&number| fault(number, edition, record, call, cache_len))
}
