//! One input given to both readers, and everything compared.

use compare::difference::{Checked, Difference};
use compare::reading::Reading;
use menhotrac::raw::SuiteEntries;
use model::wire::{self, Fault};
use std::fmt;

/// Bytes, and the lists that the readers are lent.
pub struct Given<'a> {
    pub bytes: &'a [u8],
    pub lists: [SuiteEntries; 2],
}

/// Gives the bytes to both readers. What both say comes back, with the fault if
/// they refuse.
pub fn read(given: &Given) -> Checked<(Reading, Option<Fault>)> {
    let read = wire::read(given.bytes);
    let plain = Reading::of_plain(given.bytes, &read, given.lists);
    let archive = Reading::of_archive(given.bytes, given.lists);
    if plain == archive {
        return Ok((archive, read.err()));
    }
    let what = "the readers differ";
    let given = (given, "the plain reader's fault", read.err());
    Err(Difference::new(
        what,
        &given,
        [("plain", &plain), ("archive", &archive)],
    ))
}

/// A message that is well formed has to be read as it was written.
pub fn read_back(given: &Given, written: &Reading) -> Checked<Reading> {
    let (reading, _) = read(given)?;
    if reading == *written {
        return Ok(reading);
    }
    let what = "a message is not read as it was written";
    Err(Difference::new(
        what,
        given,
        [("written", written), ("read", &reading)],
    ))
}

/// Prints no more of the bytes than the first; the seed and the input's number
/// bring the rest back.
impl fmt::Debug for Given<'_> {
    fn fmt(&self, formatter: &mut fmt::Formatter) -> fmt::Result {
        let begin = &self.bytes[..self.bytes.len().min(200)];
        formatter
            .debug_struct("Given")
            .field("len", &self.bytes.len())
            .field("bytes", &format_args!("{begin:02x?}"))
            .field("lists", &format_args!("{:?}", self.lists))
            .finish()
    }
}
