//! The inputs of one thread, given to both readers.

use crate::coverage::Coverage;
use crate::trial::{read, read_back, Given};
use compare::difference::Checked;
use compare::wire::inputs::{Inputs, Kind};
use menhotrac::raw::SuiteEntries;
use model::random::Random;

pub struct Session<'a> {
    inputs: Inputs<'a>,
    pub coverage: Coverage,
}

/// Lists that hold anything, to see what is written into them.
fn any_lists(random: &mut Random) -> [SuiteEntries; 2] {
    [(); 2].map(|()| [(); 16].map(|()| random.next_u32()))
}

impl<'a> Session<'a> {
    pub fn new(inputs: Inputs<'a>) -> Session<'a> {
        Session {
            inputs,
            coverage: Coverage::default(),
        }
    }

    /// Gives an input of this kind, and notes what the readers say.
    pub fn give(&mut self, kind: Kind) -> Checked<()> {
        if kind == Kind::WellFormed {
            return self.give_well_formed();
        }
        let lists = any_lists(self.inputs.random());
        let bytes = &self.inputs.draw(kind);
        match read(&Given { bytes, lists })? {
            (reading, None) => self.coverage.note_message(&reading),
            (_, Some(fault)) => self.coverage.note_fault(bytes, fault),
        }
        Ok(())
    }

    fn give_well_formed(&mut self) -> Checked<()> {
        let lists = any_lists(self.inputs.random());
        let written = self.inputs.well_formed(lists);
        let bytes = &written.bytes;
        let reading = read_back(&Given { bytes, lists }, &written.reading)?;
        self.coverage.note_message(&reading);
        let message = reading.message.number;
        self.coverage.note_order(message, written.order);
        Ok(())
    }
}
