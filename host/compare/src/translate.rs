//! The model's values as the archive's structs. The model's numbers get the names
//! that the structs have for them, so that one out of place shows as a difference.

use menhotrac::raw::{self, Actions, Connection};
use model::{numbers, Lists, Record, Sheet};

pub fn connection(record: &Record) -> Connection {
    let [state, awaiting_ack, next_send_bit, expected_bit, cached_len, handled, tags @ ..] =
        numbers::connection(record);
    let [h, prover, verifier, dat, ra, ack] = tags;
    Connection {
        state,
        awaiting_ack,
        next_send_bit,
        expected_bit,
        cached_len,
        handled,
        h,
        prover,
        verifier,
        dat,
        ra,
        ack,
    }
}

pub fn actions(sheet: &Sheet) -> Actions {
    let [message, prover, verifier, h, hp, hv, dat, ra, ack, values @ ..] = numbers::actions(sheet);
    let [dat_seconds, bit, deliver, verifier_suite, prover_suite, payload_slice, payload_len] =
        values;
    Actions {
        message,
        prover,
        verifier,
        h,
        hp,
        hv,
        dat,
        ra,
        ack,
        dat_seconds,
        bit,
        deliver,
        verifier_suite,
        prover_suite,
        payload_slice,
        payload_len,
    }
}

pub fn lists<'a>(lists: &Lists<'a>) -> raw::Lists<'a> {
    raw::Lists {
        our_verifiers: lists.our_verifiers,
        peer_provers: lists.peer_provers,
        peer_verifiers: lists.peer_verifiers,
        our_provers: lists.our_provers,
    }
}
