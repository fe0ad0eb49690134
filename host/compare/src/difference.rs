//! What is printed when two sides differ.

use std::fmt::{Debug, Display, Formatter, Result};

/// The way every check ends.
pub type Checked<T> = std::result::Result<T, Box<Difference>>;

/// A difference: what differs, what both sides were given, and what each made of
/// it, one field to a line.
pub struct Difference {
    what: &'static str,
    given: String,
    sides: [(&'static str, String); 2],
}

impl Difference {
    /// Boxed, because it is large and almost never there. Each side comes with
    /// its name.
    pub fn new(
        what: &'static str,
        given: &dyn Debug,
        sides: [(&'static str, &dyn Debug); 2],
    ) -> Box<Difference> {
        Box::new(Difference {
            what,
            given: format!("{given:#?}"),
            sides: sides.map(|(name, result)| (name, format!("{result:#?}"))),
        })
    }
}

impl Display for Difference {
    fn fmt(&self, formatter: &mut Formatter) -> Result {
        writeln!(formatter, "{}", self.what)?;
        writeln!(formatter, "given: {}", self.given)?;
        for (name, result) in &self.sides {
            writeln!(formatter, "{name}: {result}")?;
        }
        write!(formatter, "the lines that differ:")?;
        let [(first_name, first), (second_name, second)] = &self.sides;
        for (first, second) in first.lines().zip(second.lines()) {
            if first != second {
                let (first, second) = (first.trim(), second.trim());
                write!(formatter, "\n  {first_name} {first} {second_name} {second}")?;
            }
        }
        Ok(())
    }
}
