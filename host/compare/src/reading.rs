//! What a reader makes of bytes, in the archive's numbers.

use menhotrac::raw::{self, SuiteEntries};
use model::numbers;
use model::wire::{Fault, Message};
use std::fmt;

/// An answer, and the two lists after it.
#[derive(Clone, Copy, PartialEq, Eq)]
pub struct Reading {
    pub message: raw::Message,
    pub provers: SuiteEntries,
    pub verifiers: SuiteEntries,
}

impl Reading {
    /// What is read before anything is: the lists as they were lent.
    pub fn before(lists: [SuiteEntries; 2]) -> Reading {
        let [provers, verifiers] = lists;
        Reading {
            message: raw::Message::default(),
            provers,
            verifiers,
        }
    }

    /// The archive's, lent these lists.
    pub fn of_archive(bytes: &[u8], lists: [SuiteEntries; 2]) -> Reading {
        let mut reading = Reading::before(lists);
        reading.message = raw::read(bytes, &mut reading.provers, &mut reading.verifiers);
        reading
    }

    /// What the archive has to say if this is what the plain reader made of the
    /// bytes.
    pub fn of_plain(
        bytes: &[u8],
        read: &Result<Message, Fault>,
        lists: [SuiteEntries; 2],
    ) -> Reading {
        let mut reading = Reading::before(lists);
        let ([refusal, number, bit], sizes) = numbers::message(bytes, read);
        let [provers, verifiers, place, size] = sizes;
        reading.message = raw::Message {
            refusal,
            number,
            bit,
            provers,
            verifiers,
            place,
            size,
        };
        if let Ok(message @ Message::Hello { .. }) = read {
            let entries = message.suites().map(|suites| suites.entries);
            [reading.provers, reading.verifiers] = entries;
        }
        reading
    }
}

/// Each list on one line, however the rest is printed.
impl fmt::Debug for Reading {
    fn fmt(&self, formatter: &mut fmt::Formatter) -> fmt::Result {
        formatter
            .debug_struct("Reading")
            .field("message", &self.message)
            .field("provers", &format_args!("{:?}", self.provers))
            .field("verifiers", &format_args!("{:?}", self.verifiers))
            .finish()
    }
}
