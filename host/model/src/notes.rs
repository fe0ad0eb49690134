//! "The five notes", kept from the calls' arguments and the cache's length
//! alone. They share with the step only what arguments mean, and name no state
//! but in [`Notes::state`].

use crate::call::{code, Call};
use crate::refusal::argument_fault;
use crate::step::Answer;

#[derive(Clone, Copy, Debug, Default, PartialEq, Eq)]
enum Opening {
    #[default]
    Fresh,
    Greeted,
    Open,
    Locked,
}

#[derive(Clone, Copy, Debug, Default, PartialEq, Eq)]
enum Token {
    #[default]
    None,
    Current,
    Missing,
}

/// The prover's and the verifier's note.
#[derive(Clone, Copy, Debug, Default, PartialEq, Eq)]
enum Attestation {
    #[default]
    Off,
    Running,
    Good,
}

#[derive(Clone, Debug, Default, PartialEq, Eq)]
struct Block {
    waiting: bool,
    next_send: u32,
    expected: u32,
    bytes: Vec<u8>,
}

/// What can be live, each with its own place in [`Notes::starts`].
#[derive(Clone, Copy, PartialEq, Eq)]
enum Runner {
    H,
    Prover,
    Verifier,
    Dat,
    Ra,
    Ack,
}

const RUNNERS: [Runner; 6] = [
    Runner::H,
    Runner::Prover,
    Runner::Verifier,
    Runner::Dat,
    Runner::Ra,
    Runner::Ack,
];

/// The five notes, the count, and the count at the latest start of each runner.
#[derive(Clone, Debug, Default, PartialEq, Eq)]
pub struct Notes {
    opening: Opening,
    token: Token,
    prover: Attestation,
    verifier: Attestation,
    block: Block,
    counted: u32,
    starts: [u32; 6],
}

/// What the notes say of the call just heard.
#[derive(Clone, Copy, Debug, PartialEq, Eq)]
pub struct Predicted<'a> {
    pub answer: Answer,
    pub state: u32,
    pub number: u32,
    /// The bit and the bytes of the DATA that is ordered.
    pub data: Option<(u32, &'a [u8])>,
    /// The bit of the ACK that is ordered.
    pub ack: Option<u32>,
    /// The bytes handed up.
    pub delivered: Option<&'a [u8]>,
    /// Open, token current and both good, before and after the call.
    pub guarded: bool,
}

impl Notes {
    /// "At first nothing is counted, running or waiting, and both bits are 0."
    pub fn new() -> Notes {
        Notes::default()
    }

    /// Takes a call and the length of its cache, and predicts the answer.
    pub fn hear<'a>(&'a mut self, call: &Call<'a>, cache_len: usize) -> Predicted<'a> {
        let trusted_before = self.trusted();
        let answer = self.answer(call, cache_len);
        if answer == Answer::Handled {
            self.count(call);
        }
        let this = |event: u32| answer == Answer::Handled && call.event.code == event;
        let sends = this(code::UPPER_SEND_DATA) || this(code::ACK_TIMEOUT);
        let hands_up = this(code::SC_DATA);
        Predicted {
            answer,
            state: self.state(),
            number: self.counted,
            data: sends.then_some((self.block.next_send, self.block.bytes.as_slice())),
            ack: hands_up.then_some(call.event.bit),
            delivered: hands_up.then_some(call.payload),
            guarded: trusted_before && self.trusted(),
        }
    }

    /// Refused if the arguments have a fault, "or if its event counts and the
    /// count is the number that refusal 8 names". "Else it is handled if its event
    /// counts, and ignored if not."
    fn answer(&self, call: &Call, cache_len: usize) -> Answer {
        let counts = self.counts(call);
        let fault = |number| match number {
            8 => counts && self.counted == u32::MAX,
            _ => argument_fault(number, call, cache_len),
        };
        match (1..=9).find(|&number| fault(number)) {
            Some(number) => Answer::Refused(number),
            None if counts => Answer::Handled,
            None => Answer::Ignored,
        }
    }

    /// "An event counts if a rule above takes it"; here those of the opening
    /// note that do not need it open.
    fn counts(&self, call: &Call) -> bool {
        let begun = matches!(self.opening, Opening::Greeted | Opening::Open);
        match call.event.code {
            code::UPPER_START_HANDSHAKE => self.opening == Opening::Fresh,
            code::SC_HELLO => self.opening == Opening::Greeted,
            code::UPPER_CLOSE | code::SC_ERROR | code::SC_CLOSE => begun,
            code::HANDSHAKE_TIMEOUT => begun && self.live(call),
            _ => self.opening == Opening::Open && self.counts_open(call),
        }
    }

    /// The rules that need it open.
    fn counts_open(&self, call: &Call) -> bool {
        match call.event.code {
            code::SC_DAT => self.token == Token::Missing,
            code::SC_DAT_EXPIRED | code::SC_RE_RA => true,
            code::UPPER_RE_RA => self.verifier == Attestation::Good,
            code::SC_RA_PROVER => self.verifier == Attestation::Running,
            code::SC_RA_VERIFIER => self.prover == Attestation::Running,
            code::UPPER_SEND_DATA => self.trusted() && !self.block.waiting,
            code::SC_ACK => self.block.waiting && call.event.bit == self.block.next_send,
            code::SC_DATA => self.trusted() && call.event.bit == self.block.expected,
            _ => self.live(call),
        }
    }

    /// "The driver or timer runs, and the tag is the number of counted events at
    /// its latest start, that one included."
    fn live(&self, call: &Call) -> bool {
        let runner = match (call.event.code, call.event.timer) {
            (4..=6, _) | (code::HANDSHAKE_TIMEOUT, 2) => Runner::Verifier,
            (7..=9, _) | (code::HANDSHAKE_TIMEOUT, 1) => Runner::Prover,
            (code::HANDSHAKE_TIMEOUT, 0) => Runner::H,
            (code::DAT_TIMEOUT, _) => Runner::Dat,
            (code::RA_TIMEOUT, _) => Runner::Ra,
            (code::ACK_TIMEOUT, _) => Runner::Ack,
            _ => return false,
        };
        self.runs(runner) && call.event.tag == self.starts[runner as usize]
    }

    fn runs(&self, runner: Runner) -> bool {
        match runner {
            Runner::H => self.opening == Opening::Greeted || self.token == Token::Missing,
            Runner::Prover => self.prover == Attestation::Running,
            Runner::Verifier => self.verifier == Attestation::Running,
            Runner::Dat => self.token == Token::Current,
            Runner::Ra => self.verifier == Attestation::Good,
            Runner::Ack => self.trusted() && self.block.waiting,
        }
    }

    /// Open, token current, both good.
    fn trusted(&self) -> bool {
        self.opening == Opening::Open
            && self.token == Token::Current
            && self.prover == Attestation::Good
            && self.verifier == Attestation::Good
    }

    /// Counts an event, moves the notes, and marks what it started.
    fn count(&mut self, call: &Call) {
        let ran = RUNNERS.map(|runner| self.runs(runner));
        self.counted += 1;
        self.move_notes(call);
        for runner in RUNNERS {
            let begins = !ran[runner as usize] || starts_anew(runner, call.event.code);
            if self.runs(runner) && begins {
                self.starts[runner as usize] = self.counted;
            }
        }
    }

    fn move_notes(&mut self, call: &Call) {
        match call.event.code {
            code::UPPER_START_HANDSHAKE => self.opening = Opening::Greeted,
            code::SC_HELLO if call.good_hello() => self.open(),
            code::SC_DAT if call.good_token() => self.renew_token(),
            code::SC_HELLO
            | code::SC_DAT
            | code::UPPER_CLOSE
            | code::SC_ERROR
            | code::SC_CLOSE
            | code::HANDSHAKE_TIMEOUT
            | code::RA_VERIFIER_FAILED
            | code::RA_PROVER_FAILED => self.lock(),
            code::DAT_TIMEOUT => {
                self.token = Token::Missing;
                self.verifier = Attestation::Off;
            }
            code::SC_DAT_EXPIRED | code::SC_RE_RA => self.prover = Attestation::Running,
            code::RA_PROVER_OK => self.prover = Attestation::Good,
            code::UPPER_RE_RA | code::RA_TIMEOUT => self.verifier = Attestation::Running,
            code::RA_VERIFIER_OK => self.verifier = Attestation::Good,
            _ => self.block.hear(call),
        }
    }

    fn open(&mut self) {
        self.opening = Opening::Open;
        self.prover = Attestation::Running;
        self.renew_token();
    }

    /// The token is current again, and the verifier runs from its return.
    fn renew_token(&mut self) {
        self.token = Token::Current;
        self.verifier = Attestation::Running;
    }

    fn lock(&mut self) {
        self.opening = Opening::Locked;
        self.block.waiting = false;
    }

    /// The state that the notes give; only here do they use its numbers.
    fn state(&self) -> u32 {
        let prover_runs = self.prover == Attestation::Running;
        let verifier_runs = self.verifier == Attestation::Running;
        match (self.opening, self.token) {
            (Opening::Fresh, _) => 0,
            (Opening::Greeted, _) => 1,
            (Opening::Locked, _) => 9,
            (Opening::Open, Token::Missing) if prover_runs => 5,
            (Opening::Open, Token::Missing) => 6,
            (Opening::Open, _) => match (prover_runs, verifier_runs) {
                (true, true) => 2,
                (true, false) => 3,
                (false, true) => 4,
                (false, false) if self.block.waiting => 8,
                (false, false) => 7,
            },
        }
    }
}

/// Starts of what already runs: the prover's at every 14 or 17, ACK's at a
/// repeat.
fn starts_anew(runner: Runner, event: u32) -> bool {
    match runner {
        Runner::Prover => matches!(event, code::SC_DAT_EXPIRED | code::SC_RE_RA),
        Runner::Ack => event == code::ACK_TIMEOUT,
        _ => false,
    }
}

impl Block {
    fn hear(&mut self, call: &Call) {
        match call.event.code {
            code::UPPER_SEND_DATA => {
                self.waiting = true;
                self.bytes.clear();
                self.bytes.extend_from_slice(call.payload);
            }
            code::SC_ACK => {
                self.waiting = false;
                self.next_send = 1 - self.next_send;
            }
            code::SC_DATA => self.expected = 1 - self.expected,
            _ => {}
        }
    }
}

#[cfg(test)]
mod tests {
    use super::{Attestation, Notes, Opening, Token};
    use crate::call::{code, Call, Event};
    use crate::step::Answer;
    use crate::suites::Lists;

    /// A call whose token has 60 seconds less the margin, and whose suites are found.
    fn call(code: u32, margin: u32) -> Call<'static> {
        Call {
            event: Event {
                code,
                verdict: true,
                margin,
                expiry: 1_060,
                now: 1_000,
                ..Event::default()
            },
            payload: &[],
            lists: Lists {
                our_verifiers: &[3],
                peer_provers: &[3],
                peer_verifiers: &[3],
                our_provers: &[3],
            },
        }
    }

    /// Notes with the prover running and nothing counted.
    fn notes(opening: Opening, token: Token) -> Notes {
        Notes {
            opening,
            token,
            prover: Attestation::Running,
            ..Notes::new()
        }
    }

    #[test]
    fn full_count_refuses_only_what_would_count() {
        let fresh = notes(Opening::Fresh, Token::None);
        let greeted = notes(Opening::Greeted, Token::None);
        let missing = notes(Opening::Open, Token::Missing);
        for (before, code, margin, answer) in [
            (&fresh, code::UPPER_CLOSE, 0, Answer::Ignored),
            (&fresh, code::UPPER_START_HANDSHAKE, 0, Answer::Refused(8)),
            (&fresh, code::SC_HELLO, 301, Answer::Refused(9)),
            (&greeted, code::SC_HELLO, 301, Answer::Refused(8)),
            (&greeted, code::SC_DAT, 301, Answer::Refused(9)),
            (&missing, code::SC_HELLO, 301, Answer::Refused(9)),
            (&missing, code::SC_DAT, 301, Answer::Refused(8)),
        ] {
            let mut full = before.clone();
            full.counted = u32::MAX;
            let predicted = full.hear(&call(code, margin), 4_096);
            assert_eq!(predicted.answer, answer, "{code} {before:?}");
        }
    }

    #[test]
    fn good_bad_and_failed_follow_the_margin() {
        let hello = (notes(Opening::Greeted, Token::None), code::SC_HELLO);
        let dat = (notes(Opening::Open, Token::Missing), code::SC_DAT);
        for (before, code) in [hello, dat] {
            for (margin, state) in [(0, 2), (59, 2), (60, 9), (300, 9)] {
                let mut notes = before.clone();
                let predicted = notes.hear(&call(code, margin), 4_096);
                assert_eq!(predicted.state, state, "{code} with {margin}");
            }
        }
    }

    #[test]
    fn refused_margin_moves_no_note() {
        for before in [
            notes(Opening::Fresh, Token::None),
            notes(Opening::Greeted, Token::None),
            notes(Opening::Open, Token::Current),
            notes(Opening::Open, Token::Missing),
            notes(Opening::Locked, Token::Current),
        ] {
            for (code, margin) in [(11, 301), (11, u32::MAX), (13, 301), (13, u32::MAX)] {
                let mut notes = before.clone();
                let predicted = notes.hear(&call(code, margin), 4_096);
                assert_eq!(predicted.answer, Answer::Refused(9), "{code} {before:?}");
                assert_eq!(notes, before);
            }
        }
    }
}
