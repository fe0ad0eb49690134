//! The refusals.

use core::error::Error;
use core::fmt;

use crate::numbered::numbered;

numbered! {
    /// Why a call was refused, by document 01's numbers. A refused call changes neither record nor cache. Of several
    /// faults the one with the lowest number is given.
    ///
    /// The types of this crate leave no room for the faults 1 to 3.
    Refusal {
        /// The event's code is above 23.
        UnknownCode = 1,
        /// A handshake timeout names a timer above 2.
        UnknownTimer = 2,
        /// A DATA or ACK has a bit above 1.
        WrongBit = 3,
        /// The event's payload is longer than [`MAX_PAYLOAD_LEN`](crate::MAX_PAYLOAD_LEN).
        PayloadTooLong = 4,
        /// The cache is shorter than [`CACHE_LEN`](crate::CACHE_LEN).
        CacheTooShort = 5,
        /// A suite list is longer than [`MAX_LIST_LEN`](crate::MAX_LIST_LEN).
        ListTooLong = 6,
        /// The record is not well formed: it was stored or carried wrongly.
        NotWellFormed = 7,
        /// The event would be handled, and the number of handled events is at its end.
        NumberExhausted = 8,
        /// The margin of a token is above [`MAX_MARGIN`](crate::MAX_MARGIN).
        MarginTooLarge = 9,
    }
}

impl Refusal {
    const fn text(self) -> &'static str {
        match self {
            Self::UnknownCode => "the event's code is unknown",
            Self::UnknownTimer => "the handshake timer is unknown",
            Self::WrongBit => "the bit is neither 0 nor 1",
            Self::PayloadTooLong => "the payload is longer than 4096 bytes",
            Self::CacheTooShort => "the cache is shorter than 4096 bytes",
            Self::ListTooLong => "a suite list has more than 16 entries",
            Self::NotWellFormed => "the record is not well formed",
            Self::NumberExhausted => "the number of handled events is at its end",
            Self::MarginTooLarge => "the margin is above 300 seconds",
        }
    }
}

impl fmt::Display for Refusal {
    fn fmt(&self, formatter: &mut fmt::Formatter<'_>) -> fmt::Result {
        formatter.pad(self.text())
    }
}

impl Error for Refusal {}
