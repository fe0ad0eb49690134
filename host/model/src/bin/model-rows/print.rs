//! How numbers and bytes are printed.

use std::fmt::{Display, Formatter, Result};

/// Numbers, each after a blank.
pub struct Numbers<'a, T>(pub &'a [T]);

/// The longest runs of equal bytes, each as COUNT*BYTE after a blank.
pub struct Runs<'a>(pub &'a [u8]);

impl<T: Display> Display for Numbers<'_, T> {
    fn fmt(&self, formatter: &mut Formatter) -> Result {
        let mut numbers = self.0.iter();
        numbers.try_for_each(|number| write!(formatter, " {number}"))
    }
}

impl Display for Runs<'_> {
    fn fmt(&self, formatter: &mut Formatter) -> Result {
        let mut runs = self.0.chunk_by(|first, second| first == second);
        runs.try_for_each(|run| write!(formatter, " {}*{:02x}", run.len(), run[0]))
    }
}
