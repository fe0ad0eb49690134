//! Calls on arbitrary records: well formed, with one clause spoilt, and wholly
//! random.

use crate::difference::Checked;
use crate::draw;
use crate::session::Session;
use crate::trial::Sides;
use compare::records::{Making, Records};
use model::{transitions, Record};

pub struct Arbitrary {
    records: Records,
    /// For each state, the events that its column of the table handles.
    handled: Vec<Vec<u32>>,
    sides: Sides,
}

impl Arbitrary {
    pub fn new(bytes: &[u8]) -> Arbitrary {
        let mut handled = vec![Vec::new(); 9];
        for (state, event, _) in transitions() {
            handled[state as usize].push(event);
        }
        Arbitrary {
            records: Records::default(),
            handled,
            sides: Sides::new(bytes),
        }
    }

    pub fn call(&mut self, session: &mut Session) -> Checked<()> {
        let (making, record) = self.records.draw(session.edition, &mut session.random)?;
        let code = self.draw_code(session, &record);
        let arguments = draw::arguments(session, &record, code);
        let (outcome, ..) = self.sides.try_call(&record, &arguments)?;
        session.coverage.note_call(&record, &arguments, &outcome);
        if let (Making::Spoilt(spoil), 7) = (making, outcome.answer) {
            session.coverage.note_spoil(spoil);
        }
        Ok(())
    }

    /// An event that the state handles, any event, or none at all.
    fn draw_code(&self, session: &mut Session, record: &Record) -> u32 {
        let handled = self.handled.get(record.state as usize);
        let random = &mut session.random;
        match (random.below(20), handled) {
            (0, _) => random.at_least(24),
            (1..=9, Some(codes)) => random.pick(codes),
            _ => random.below(24),
        }
    }
}
