//! Why bytes are refused.

/// What is wrong.
#[derive(Clone, Copy, Debug, PartialEq, Eq, PartialOrd, Ord)]
pub enum What {
    /// The bounds end inside a varint or before it.
    Cut,
    /// A length reaches behind its bounds.
    PastEnd,
    /// There is nothing to read.
    NoBytes,
    /// There is no field of this number.
    Unknown,
    /// The field has come before.
    Repeated,
    /// Something follows the outer field.
    Trailing,
    /// The field is known, but not by this wire type.
    WireType,
    /// A varint does not end within ten bytes.
    TooLong,
    /// The value needs more than 32 bits.
    TooLarge,
    /// The value is no bit, but has at most 32 bits.
    AboveOne,
    /// There is an entry more than a list may have.
    TooMany,
}

/// What shows the fault by its first byte.
#[derive(Clone, Copy, Debug, PartialEq, Eq, PartialOrd, Ord)]
pub enum Place {
    OuterKey,
    OuterLength,
    /// The byte after the outer field.
    After,
    Key,
    Length,
    Bit,
    /// One of the entries that a list may have.
    Entry,
    /// The entry after those.
    Surplus,
}

/// The first fault from the left.
#[derive(Clone, Copy, Debug, PartialEq, Eq, PartialOrd, Ord)]
pub struct Fault {
    pub place: Place,
    pub what: What,
}

impl Fault {
    pub(super) fn new(place: Place, what: What) -> Fault {
        Fault { place, what }
    }

    /// The number of the refusal.
    pub fn number(&self) -> u32 {
        match self.what {
            What::Cut | What::PastEnd => 21,
            What::NoBytes | What::Unknown | What::Repeated | What::Trailing => 22,
            What::WireType => 23,
            What::TooLong | What::TooLarge | What::AboveOne => 24,
            What::TooMany => 25,
        }
    }
}
