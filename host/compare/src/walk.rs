//! Random runs from fresh, on which the model's five notes and its ledger are asked
//! as well.

use crate::arguments::Arguments;
use crate::difference::{Checked, Difference};
use crate::draw;
use crate::session::Session;
use crate::trial::Sides;
use compare::outcome::{part, Outcome};
use menhotrac::raw::{self, HANDLED, WRONG_VERDICT};
use model::{code, message, numbers, Ledger, Notes, Predicted, Record, Running, Sheet};

/// Events that can only lock. They are drawn rarely, so that runs get deep.
const LOCKING: [u32; 6] = [
    code::UPPER_CLOSE,
    code::RA_VERIFIER_FAILED,
    code::RA_PROVER_FAILED,
    code::SC_ERROR,
    code::SC_CLOSE,
    code::HANDSHAKE_TIMEOUT,
];

/// For each state, events that lead on.
const FORWARD: [&[u32]; 10] = [
    &[code::UPPER_START_HANDSHAKE],
    &[code::SC_HELLO],
    &[code::RA_VERIFIER_OK, code::RA_PROVER_OK],
    &[code::RA_PROVER_OK, code::DAT_TIMEOUT],
    &[code::RA_VERIFIER_OK],
    &[code::SC_DAT, code::RA_PROVER_OK, code::SC_ACK],
    &[code::SC_DAT, code::SC_RE_RA],
    &[code::UPPER_SEND_DATA, code::SC_DATA],
    &[code::SC_ACK, code::SC_DATA, code::DAT_TIMEOUT],
    &[code::UPPER_START_HANDSHAKE, code::SC_HELLO, code::SC_DATA],
];

/// The block last accepted and the bit it went with, kept without the model.
#[derive(Default)]
struct OwnBlock {
    bit: u32,
    next_bit: u32,
    bytes: Vec<u8>,
}

/// The run that is under way.
pub struct Walk {
    record: Record,
    notes: Notes,
    ledger: Ledger,
    block: OwnBlock,
    sides: Sides,
}

impl Walk {
    pub fn new(bytes: &[u8]) -> Walk {
        Walk {
            record: Record::fresh(),
            notes: Notes::new(),
            ledger: Ledger::default(),
            block: OwnBlock::default(),
            sides: Sides::new(bytes),
        }
    }

    /// Makes the run's next call, or the first of a new run.
    pub fn call(&mut self, session: &mut Session) -> Checked<()> {
        if self.record.state == 9 && session.random.chance(20) {
            self.begin_again();
        }
        let code = self.draw_code(session);
        let arguments = draw::arguments(session, &self.record, code);
        let (outcome, after, sheet) = self.sides.try_call(&self.record, &arguments)?;
        if outcome.answer != WRONG_VERDICT {
            self.ask_notes(&arguments, &outcome)?;
        }
        self.ask_ledger(&arguments, &outcome, &after, &sheet)?;
        self.check_block(&arguments, &outcome)?;
        let coverage = &mut session.coverage;
        coverage.note_call(&self.record, &arguments, &outcome);
        if outcome.answer == HANDLED {
            coverage.note_transition(self.record.state, code, after.state);
        }
        self.record = after;
        Ok(())
    }

    fn begin_again(&mut self) {
        self.record = Record::fresh();
        self.notes = Notes::new();
        self.ledger = Ledger::default();
        self.block = OwnBlock::default();
    }

    fn draw_code(&self, session: &mut Session) -> u32 {
        let random = &mut session.random;
        let any = random.below(24);
        match random.below(100) {
            0..=1 => random.pick(&LOCKING),
            2 => random.at_least(24),
            3..=79 if !LOCKING.contains(&any) => any,
            _ => random.pick(FORWARD[self.record.state as usize]),
        }
    }

    /// Compares the archive's outcome with what the notes predict.
    fn ask_notes(&mut self, arguments: &Arguments, outcome: &Outcome) -> Checked<()> {
        let call = arguments.call();
        let predicted = self.notes.hear(&call, arguments.cache_len);
        let actions = &outcome.actions;
        let bytes = part(actions, arguments.payload, self.sides.cache(arguments)).unwrap_or(&[]);
        let came = Predicted {
            answer: numbers::answer_of(outcome.answer),
            state: outcome.connection.state,
            number: outcome.connection.handled,
            data: (actions.message == message::DATA).then_some((actions.bit, bytes)),
            ack: (actions.message == message::ACK).then_some(actions.bit),
            delivered: (actions.deliver != 0).then_some(bytes),
            guarded: predicted.guarded,
        };
        let moves = came.data.is_some() || came.ack.is_some() || came.delivered.is_some();
        let what = if came != predicted {
            "the notes predicted something else"
        } else if moves && !predicted.guarded {
            "data moved unguarded"
        } else {
            return Ok(());
        };
        let given = (&self.record, arguments);
        Err(Difference::new(
            what,
            &given,
            [("notes", &predicted), ("archive", &came)],
        ))
    }

    /// Compares the tags that are on with what runs by the ledger.
    fn ask_ledger(
        &mut self,
        arguments: &Arguments,
        outcome: &Outcome,
        after: &Record,
        sheet: &Sheet,
    ) -> Checked<()> {
        let answer = numbers::answer_of(outcome.answer);
        let obeyed = self.ledger.hear(&arguments.call().event, answer, sheet);
        let (running, recorded) = (self.ledger.running, Running::recorded(after));
        let what = if !obeyed {
            "an order has no meaning, or went to a timer or driver that is off"
        } else if running != recorded {
            "the tags that are on are not those of what runs by the orders"
        } else {
            return Ok(());
        };
        let given = (&self.record, arguments, sheet);
        Err(Difference::new(
            what,
            &given,
            [("ledger", &running), ("archive", &recorded)],
        ))
    }

    /// A DATA carries the bit and the bytes of the block last accepted.
    fn check_block(&mut self, arguments: &Arguments, outcome: &Outcome) -> Checked<()> {
        if outcome.answer == HANDLED {
            self.block.hear(&arguments.event, arguments.payload);
        }
        let actions = &outcome.actions;
        if actions.message != message::DATA {
            return Ok(());
        }
        let sent = part(actions, arguments.payload, self.sides.cache(arguments));
        if (actions.bit, sent) == (self.block.bit, Some(self.block.bytes.as_slice())) {
            return Ok(());
        }
        let what = "DATA is not the block last accepted";
        let given = (&self.record, arguments);
        let accepted = (self.block.bit, Some(&self.block.bytes));
        let sent = (actions.bit, sent);
        Err(Difference::new(
            what,
            &given,
            [("accepted", &accepted), ("sent", &sent)],
        ))
    }
}

impl OwnBlock {
    /// Hears of a handled event.
    fn hear(&mut self, event: &raw::Event, payload: &[u8]) {
        match event.code {
            code::UPPER_SEND_DATA => {
                self.bit = self.next_bit;
                self.bytes.clear();
                self.bytes.extend_from_slice(payload);
            }
            code::SC_ACK => self.next_bit = 1 - self.bit,
            _ => {}
        }
    }
}

#[cfg(test)]
mod tests {
    use super::Walk;
    use crate::coverage::Coverage;
    use crate::session::Session;
    use model::random::Random;
    use model::Edition;

    /// In the tag, and in the order.
    #[test]
    fn printed_edition_differs_in_ra_at_21() {
        let bytes = vec![0; 1 << 16];
        let mut session = Session {
            edition: Edition::Printed,
            random: Random::new(1),
            bytes: &bytes,
            coverage: Coverage::default(),
        };
        let mut walk = Walk::new(&bytes);
        let difference = (0..100_000).find_map(|_| walk.call(&mut session).err());
        let said = difference.expect("a difference").to_string();
        let (given, lines) = said.split_once("the lines that differ:").unwrap();
        assert!(given.contains("code: 21,"), "{said}");
        let about_ra = |line: &str| line.trim().starts_with("model ra: ");
        let about_ra: Vec<bool> = lines.trim().lines().map(about_ra).collect();
        assert_eq!(about_ra, [true, true], "{said}");
    }
}
