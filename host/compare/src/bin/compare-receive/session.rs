//! The messages of one thread, given to both sides.

use crate::arrival::Arrival;
use crate::coverage::Coverage;
use crate::trial::Sides;
use compare::difference::Checked;
use compare::records::{Making, Records};
use compare::well_formed;
use compare::wire::inputs::{Inputs, Kind};
use model::arrival::{call_of, Given};
use model::random::Random;
use model::wire::{self, Message};
use model::{transitions, Edition, Record};

pub struct Session<'a> {
    edition: Edition,
    random: Random,
    inputs: Inputs<'a>,
    records: Records,
    /// For each event, the states that handle it.
    handling: Vec<Vec<u32>>,
    sides: Sides,
    pub coverage: Coverage,
}

impl<'a> Session<'a> {
    pub fn new(edition: Edition, mut random: Random, pool: &'a [u8]) -> Session<'a> {
        let mut handling = vec![Vec::new(); 24];
        for (state, event, _) in transitions() {
            handling[event as usize].push(state);
        }
        let inputs = Inputs::new(Random::new(random.next_u64()), pool);
        Session {
            edition,
            random,
            inputs,
            records: Records::default(),
            handling,
            sides: Sides::new(pool),
            coverage: Coverage::default(),
        }
    }

    /// Gives bytes of this kind, and notes what came of them.
    pub fn give(&mut self, kind: Kind) -> Checked<()> {
        let bytes = &self.inputs.draw(kind);
        let read = wire::read(bytes);
        let random = &mut self.random;
        let (making, record) = match &read {
            Ok(message) if random.chance(40) => {
                let record = handling_record(random, &self.handling, message);
                (Making::WellFormed, record)
            }
            _ => self.records.draw(self.edition, random)?,
        };
        let arrival = Arrival::draw(self.edition, random, record, bytes, &read);
        let receipt = self.sides.receive(&arrival, &read)?;
        self.coverage.note(&arrival, &read, &receipt.outcome);
        if let (Making::Spoilt(spoil), 7) = (making, receipt.outcome.answer) {
            self.coverage.note_spoil(spoil);
        }
        Ok(())
    }
}

/// A well-formed record in a state that handles the message.
fn handling_record(random: &mut Random, handling: &[Vec<u32>], message: &Message) -> Record {
    let code = call_of(message, &Given::default()).event.code;
    let state = random.pick(&handling[code as usize]);
    well_formed::record(random, state, u32::MAX)
}
