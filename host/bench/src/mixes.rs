//! The sequences of calls that are measured. Tags and bits depend on the record, so each sequence is recorded once by
//! running the model; replayed from the same records, all programs get the same arguments.

use compare::translate;
use menhotrac::raw::{Connection, Event, Lists};
use model::{code, Edition, Record};

const NOW: i64 = 1_000;
const EXPIRY: i64 = 1_060;
const MARGIN: u32 = 30;
const YES: u32 = 1;
pub const CACHE_LEN: usize = 4096;
const LISTS: Lists = Lists {
    our_verifiers: &[7, 3],
    peer_provers: &[3, 7],
    peer_verifiers: &[3],
    our_provers: &[3, 7],
};
const TOO_LONG: Lists = Lists {
    our_provers: &[1; 17],
    ..LISTS
};

/// A record that replaces the one that the last call left, in both forms.
pub struct Begin {
    pub connection: Connection,
    pub record: Record,
}

/// One call of a mix.
pub struct Call {
    pub begin: Option<Begin>,
    pub event: Event,
    pub payload_len: usize,
    pub cache_len: usize,
    pub lists: Lists<'static>,
}

impl Call {
    /// The call as the model takes it.
    #[inline(always)]
    pub fn modelled<'a>(&self, payload: &'a [u8]) -> model::Call<'a> {
        let Event {
            code,
            tag,
            timer,
            bit,
            verdict,
            margin,
            expiry,
            now,
        } = self.event;
        let Lists {
            our_verifiers,
            peer_provers,
            peer_verifiers,
            our_provers,
        } = self.lists;
        model::Call {
            event: model::Event {
                code,
                tag,
                timer,
                bit,
                verdict: verdict == YES,
                margin,
                expiry,
                now,
            },
            payload,
            lists: model::Lists {
                our_verifiers,
                peer_provers,
                peer_verifiers,
                our_provers,
            },
        }
    }
}

pub struct Mix {
    pub name: &'static str,
    pub calls: Vec<Call>,
}

/// Records calls and keeps the record that they leave.
struct Recorder {
    record: Record,
    begin: Option<Begin>,
    cache: Vec<u8>,
    payload: Vec<u8>,
    calls: Vec<Call>,
}

impl Recorder {
    fn new() -> Recorder {
        let mut recorder = Recorder {
            record: Record::default(),
            begin: None,
            cache: vec![0; CACHE_LEN],
            payload: vec![0; CACHE_LEN + 1],
            calls: Vec::new(),
        };
        recorder.begin_with(Record::fresh());
        recorder
    }

    /// The next call begins with this record.
    fn begin_with(&mut self, record: Record) {
        self.record = record;
        self.begin = Some(Begin {
            connection: translate::connection(&record),
            record,
        });
    }

    fn call_with(
        &mut self,
        event: Event,
        payload_len: usize,
        cache_len: usize,
        lists: Lists<'static>,
    ) {
        let call = Call {
            begin: self.begin.take(),
            event,
            payload_len,
            cache_len,
            lists,
        };
        let modelled = call.modelled(&self.payload[..payload_len]);
        let cache = &mut self.cache[..cache_len];
        (_, self.record, _) = model::step(Edition::Mended, &self.record, &modelled, cache);
        self.calls.push(call);
    }

    fn call(&mut self, event: Event, payload_len: usize) {
        self.call_with(event, payload_len, CACHE_LEN, LISTS);
    }

    fn plain(&mut self, code: u32) {
        self.tagged(code, 0);
    }

    fn tagged(&mut self, code: u32, tag: u32) {
        self.call(
            Event {
                code,
                tag,
                verdict: YES,
                margin: MARGIN,
                expiry: EXPIRY,
                now: NOW,
                ..Event::default()
            },
            0,
        );
    }

    fn bit(&mut self, code: u32, bit: u32, payload_len: usize) {
        self.call(
            Event {
                code,
                bit,
                ..Event::default()
            },
            payload_len,
        );
    }

    fn prover_ok(&mut self) {
        self.tagged(code::RA_PROVER_OK, self.record.prover);
    }

    fn verifier_ok(&mut self) {
        self.tagged(code::RA_VERIFIER_OK, self.record.verifier);
    }

    fn send(&mut self, payload_len: usize) {
        self.bit(code::UPPER_SEND_DATA, 0, payload_len);
    }

    fn open(&mut self) {
        self.plain(code::UPPER_START_HANDSHAKE);
        self.plain(code::SC_HELLO);
    }

    fn establish(&mut self) {
        self.open();
        self.prover_ok();
        self.verifier_ok();
    }

    fn into_mix(self, name: &'static str) -> Mix {
        Mix {
            name,
            calls: self.calls,
        }
    }
}

/// Handshakes from a fresh record to ESTABLISHED, with one message of each driver each way.
fn handshake(laps: usize) -> Mix {
    let mut r = Recorder::new();
    for _ in 0..laps {
        r.begin_with(Record::fresh());
        r.open();
        let (prover, verifier) = (r.record.prover, r.record.verifier);
        r.call(
            Event {
                code: code::RA_PROVER_MSG,
                tag: prover,
                ..Event::default()
            },
            64,
        );
        r.bit(code::SC_RA_PROVER, 0, 64);
        r.call(
            Event {
                code: code::RA_VERIFIER_MSG,
                tag: verifier,
                ..Event::default()
            },
            64,
        );
        r.bit(code::SC_RA_VERIFIER, 0, 64);
        r.prover_ok();
        r.verifier_ok();
    }
    r.into_mix("handshake")
}

/// A block out, its acknowledgement, and a block in.
fn data(name: &'static str, len: usize, laps: usize) -> Mix {
    let mut r = Recorder::new();
    r.establish();
    for _ in 0..laps {
        let (next, expected) = (r.record.next_send_bit, r.record.expected_bit);
        r.send(len);
        r.bit(code::SC_ACK, next, 0);
        r.bit(code::SC_DATA, expected, len);
    }
    r.into_mix(name)
}

/// Re-attestation asked for by either end and by the timer, and an expired token, while a block waits.
fn re_attestation(laps: usize) -> Mix {
    let mut r = Recorder::new();
    r.establish();
    r.send(64);
    for _ in 0..laps {
        r.plain(code::SC_RE_RA);
        r.prover_ok();
        r.plain(code::UPPER_RE_RA);
        r.verifier_ok();
        r.tagged(code::RA_TIMEOUT, r.record.ra);
        r.plain(code::SC_DAT_EXPIRED);
        r.prover_ok();
        r.verifier_ok();
        r.tagged(code::DAT_TIMEOUT, r.record.dat);
        r.plain(code::SC_DAT);
        r.verifier_ok();
        r.tagged(code::ACK_TIMEOUT, r.record.ack);
    }
    r.into_mix("re-attestation")
}

/// Events that WAIT_FOR_ACK does not take: stale tags, wrong bits, what belongs to other states.
fn ignored(laps: usize) -> Mix {
    let mut r = Recorder::new();
    r.establish();
    r.send(64);
    let (next, expected) = (r.record.next_send_bit, r.record.expected_bit);
    for _ in 0..laps {
        r.tagged(code::RA_VERIFIER_OK, 2);
        r.tagged(code::RA_PROVER_OK, 2);
        r.bit(code::SC_DATA, 1 - expected, 64);
        r.bit(code::SC_ACK, 1 - next, 0);
        r.tagged(code::ACK_TIMEOUT, 1);
        r.plain(code::SC_DAT);
        r.bit(code::SC_RA_PROVER, 0, 64);
        r.send(64);
    }
    r.into_mix("ignored")
}

/// Each refusal from 1 to 8 in turn.
fn refused(laps: usize) -> Mix {
    let event = |code| Event {
        code,
        ..Event::default()
    };
    let mut r = Recorder::new();
    r.establish();
    let good = r.record;
    let no_timer = Event {
        timer: 3,
        ..event(code::HANDSHAKE_TIMEOUT)
    };
    for _ in 0..laps {
        r.begin_with(good);
        r.plain(24);
        r.call(no_timer, 0);
        r.bit(code::SC_ACK, 2, 0);
        r.send(CACHE_LEN + 1);
        r.call_with(event(code::UPPER_RE_RA), 0, CACHE_LEN - 1, LISTS);
        r.call_with(event(code::SC_HELLO), 0, CACHE_LEN, TOO_LONG);
        r.begin_with(Record { ra: 0, ..good });
        r.plain(code::UPPER_RE_RA);
        r.begin_with(Record {
            number: u32::MAX,
            ..good
        });
        r.plain(code::UPPER_RE_RA);
    }
    r.into_mix("refused")
}

/// All mixes, each of about `calls` calls.
pub fn all(calls: usize) -> Vec<Mix> {
    vec![
        handshake(calls / 8),
        data("data-1", 1, calls / 3),
        data("data-4096", 4096, calls / 3),
        re_attestation(calls / 12),
        ignored(calls / 8),
        refused(calls / 8),
    ]
}

#[cfg(test)]
mod tests {
    use super::{all, Mix, CACHE_LEN};
    use crate::engines::{Archive, Baseline, Engine, Model};
    use crate::measure::{replay, Lent};
    use menhotrac::raw::{HANDLED, IGNORED};

    const CALLS: usize = 240;

    /// Calls that establish, and those with a block sent after them.
    const ESTABLISHING: usize = 4;
    const SENDING: usize = 5;

    /// What the mix's name says of its call at a place, counted from 0. The calls that set it up are handled.
    fn wanted(name: &str, place: usize) -> u32 {
        match name {
            "handshake" | "data-1" | "data-4096" | "re-attestation" => HANDLED,
            "ignored" if place < SENDING => HANDLED,
            "ignored" => IGNORED,
            "refused" if place < ESTABLISHING => HANDLED,
            "refused" => (place - ESTABLISHING) as u32 % 8 + 1,
            _ => panic!("nothing is said of the mix {name}"),
        }
    }

    fn check_answers(engine: &mut impl Engine, program: &str, mix: &Mix) {
        let payload = vec![7; CACHE_LEN + 1];
        let mut cache = vec![0; CACHE_LEN];
        for (place, call) in mix.calls.iter().enumerate() {
            if let Some(begin) = &call.begin {
                engine.begin(begin);
            }
            let payload = &payload[..call.payload_len];
            let (answer, _) = engine.step(call, payload, &mut cache[..call.cache_len]);
            let (name, code) = (mix.name, call.event.code);
            assert_eq!(
                answer,
                wanted(name, place),
                "{program}, {name}, call {place} with event {code}"
            );
        }
    }

    #[test]
    fn calls_are_answered_as_the_name_says() {
        for mix in all(CALLS) {
            assert!(mix.calls.len() >= CALLS, "{}", mix.name);
            check_answers(&mut Archive::default(), "archive", &mix);
            check_answers(&mut Baseline::default(), "rust", &mix);
            check_answers(&mut Model::default(), "model", &mix);
        }
    }

    #[test]
    fn programs_compute_the_same() {
        let mut lent = Lent::new();
        for mix in all(CALLS) {
            let archive = replay(&mut Archive::default(), &mix, &mut lent);
            let rust = replay(&mut Baseline::default(), &mix, &mut lent);
            let model = replay(&mut Model::default(), &mix, &mut lent);
            assert_eq!(archive.seen, rust.seen, "{}", mix.name);
            assert_eq!(archive.seen, model.seen, "{}", mix.name);
        }
    }
}
