//! What can be read.

use super::bytes::Bytes;
use super::fault::{Fault, Place, What};
use crate::suites::MOST_SUITES;

/// A message, with the parts of the bytes that it names. A part that is absent
/// is the empty one before the first byte; a suite list that is absent is empty,
/// and an absent bit is 0.
#[derive(Clone, Copy, Debug, PartialEq, Eq)]
pub enum Message<'a> {
    Hello {
        token: &'a [u8],
        provers: Suites,
        verifiers: Suites,
    },
    Close,
    DatExpired,
    Dat(&'a [u8]),
    ReRa,
    RaProver(&'a [u8]),
    RaVerifier(&'a [u8]),
    Data {
        payload: &'a [u8],
        bit: u32,
    },
    Ack {
        bit: u32,
    },
}

impl<'a> Message<'a> {
    /// The number of the message, which is that of its outer field.
    pub fn number(&self) -> u32 {
        match self {
            Message::Hello { .. } => 1,
            Message::Close => 2,
            Message::DatExpired => 3,
            Message::Dat(_) => 4,
            Message::ReRa => 5,
            Message::RaProver(_) => 6,
            Message::RaVerifier(_) => 7,
            Message::Data { .. } => 8,
            Message::Ack { .. } => 9,
        }
    }

    /// The token or payload, of a message that can have one.
    pub fn part(&self) -> Option<&'a [u8]> {
        match *self {
            Message::Hello { token, .. } => Some(token),
            Message::Dat(part) | Message::RaProver(part) | Message::RaVerifier(part) => Some(part),
            Message::Data { payload, .. } => Some(payload),
            Message::Close | Message::DatExpired | Message::ReRa | Message::Ack { .. } => None,
        }
    }

    /// The bit of a DATA or ACK, else 0.
    pub fn bit(&self) -> u32 {
        match *self {
            Message::Data { bit, .. } | Message::Ack { bit } => bit,
            _ => 0,
        }
    }

    /// The suites of a HELLO, the provers' and the verifiers', else none.
    pub fn suites(&self) -> [Suites; 2] {
        match *self {
            Message::Hello {
                provers, verifiers, ..
            } => [provers, verifiers],
            _ => [Suites::default(); 2],
        }
    }
}

/// A suite list. Behind its entries stand zeros.
#[derive(Clone, Copy, Debug, Default, PartialEq, Eq)]
pub struct Suites {
    pub entries: [u32; MOST_SUITES],
    pub count: usize,
}

impl Suites {
    pub fn list(&self) -> &[u32] {
        &self.entries[..self.count]
    }

    /// Fills a list that is empty from a packed one.
    pub(super) fn fill(&mut self, packed: &[u8]) -> Result<(), Fault> {
        let mut left = Bytes(packed);
        for (count, entry) in self.entries.iter_mut().enumerate() {
            if left.is_empty() {
                self.count = count;
                return Ok(());
            }
            *entry = left.varint(Place::Entry)?;
        }
        self.count = MOST_SUITES;
        if left.is_empty() {
            return Ok(());
        }
        // An entry with a fault of its own shows that one.
        left.number(Place::Surplus)?;
        Err(Fault::new(Place::Surplus, What::TooMany))
    }
}
