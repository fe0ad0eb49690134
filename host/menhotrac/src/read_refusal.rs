//! The refusals of the reader.

use core::error::Error;
use core::fmt;

use crate::numbered::numbered;

numbered! {
    /// Why bytes are no message. Of several faults the leftmost is given, and of two at one byte the one with the lower
    /// number.
    ReadRefusal {
        /// A varint is cut, or a length reaches behind the end of what it is in.
        EndsTooSoon = 21,
        /// A field is unknown or comes twice, or there is not just one message.
        UnexpectedField = 22,
        /// A field does not have the wire type that it should.
        WrongWireType = 23,
        /// A varint has more than ten bytes, or its value more than 32 bits; or a bit is above 1.
        NumberTooLarge = 24,
        /// A suite list is longer than [`MAX_LIST_LEN`](crate::MAX_LIST_LEN).
        TooManySuites = 25,
    }
}

impl ReadRefusal {
    const fn text(self) -> &'static str {
        match self {
            Self::EndsTooSoon => "the message ends too soon",
            Self::UnexpectedField => {
                "a field is unknown or repeated, or there is not just one message"
            }
            Self::WrongWireType => "a field has the wrong wire type",
            Self::NumberTooLarge => "a number is too long or too large",
            Self::TooManySuites => "a suite list of the message has more than 16 entries",
        }
    }
}

impl fmt::Display for ReadRefusal {
    fn fmt(&self, formatter: &mut fmt::Formatter<'_>) -> fmt::Result {
        formatter.pad(self.text())
    }
}

impl Error for ReadRefusal {}
