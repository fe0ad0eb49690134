//! The peer's messages, read from bytes.

use crate::message::Bit;
use crate::raw;
use crate::read_refusal::ReadRefusal;
use crate::suite_list::SuiteList;
use crate::suites::MAX_LIST_LEN;

/// A message that has come from the peer. Tokens and payloads are parts of the bytes that were read, not copies. What
/// the peer has left out is empty, or [`Bit::Zero`]. A host reads a message to check its token; the step is made by
/// [`Connection::receive`](crate::Connection::receive), from the same bytes.
///
/// ```
/// use menhotrac::{Bit, ReadRefusal, Received};
///
/// let bytes = b"\x42\x09\x0a\x05block\x10\x01";
/// let data = Received::Data { bit: Bit::One, payload: b"block" };
/// assert_eq!(Received::read(bytes), Ok(data));
/// assert_eq!(Received::read(&bytes[1..]), Err(ReadRefusal::WrongWireType));
/// ```
#[derive(Clone, Copy, Debug, PartialEq, Eq)]
pub enum Received<'a> {
    /// HELLO.
    Hello {
        /// The peer's token.
        token: &'a [u8],
        /// The suites that the peer's prover knows.
        provers: SuiteList,
        /// The suites that the peer's verifier knows, the preferred one first.
        verifiers: SuiteList,
    },
    /// CLOSE.
    Close,
    /// DAT_EXPIRED: the peer asks for our token.
    DatExpired,
    /// DAT with the peer's token.
    Dat(&'a [u8]),
    /// RE_RA: our prover is to attest anew.
    ReRa,
    /// RA_PROVER with a message of the peer's prover.
    RaProver(&'a [u8]),
    /// RA_VERIFIER with a message of the peer's verifier.
    RaVerifier(&'a [u8]),
    /// DATA.
    Data {
        /// The bit of the block.
        bit: Bit,
        /// The block.
        payload: &'a [u8],
    },
    /// ACK with its bit.
    Ack(Bit),
}

impl<'a> Received<'a> {
    /// Reads one message, which has to be all of the bytes.
    #[inline]
    pub fn read(bytes: &'a [u8]) -> Result<Self, ReadRefusal> {
        let mut provers = [0; MAX_LIST_LEN];
        let mut verifiers = [0; MAX_LIST_LEN];
        let message = raw::read(bytes, &mut provers, &mut verifiers);
        if message.refusal != raw::NOT_REFUSED {
            return Err(refusal(message.refusal));
        }
        let provers = SuiteList::new(provers, message.provers);
        let verifiers = SuiteList::new(verifiers, message.verifiers);
        Self::of(&message, part(&message, bytes), [provers, verifiers])
            .ok_or(ReadRefusal::UnexpectedField)
    }

    /// The peer's token, which the host is to check; only a HELLO or DAT carries one.
    #[inline]
    pub const fn token(&self) -> Option<&'a [u8]> {
        match *self {
            Self::Hello { token, .. } | Self::Dat(token) => Some(token),
            _ => None,
        }
    }

    /// The message; none if its number or bit is out of range, which no archive that belongs to these bindings gives.
    #[inline]
    fn of(message: &raw::Message, part: &'a [u8], lists: [SuiteList; 2]) -> Option<Self> {
        let bit = Bit::from_number(message.bit)?;
        let [provers, verifiers] = lists;
        let received = match message.number {
            1 => Self::Hello {
                token: part,
                provers,
                verifiers,
            },
            2 => Self::Close,
            3 => Self::DatExpired,
            4 => Self::Dat(part),
            5 => Self::ReRa,
            6 => Self::RaProver(part),
            7 => Self::RaVerifier(part),
            8 => Self::Data { bit, payload: part },
            9 => Self::Ack(bit),
            _ => return None,
        };
        Some(received)
    }
}

/// The token or payload; empty if it were not within the bytes, which no archive that belongs to these bindings says.
#[inline]
fn part<'a>(message: &raw::Message, bytes: &'a [u8]) -> &'a [u8] {
    let from_place = bytes.get(message.place..).unwrap_or(&[]);
    from_place.get(..message.size).unwrap_or(&[])
}

/// The refusal with a number. Any other than 21 to 25 means that archive and bindings do not belong together.
#[cold]
fn refusal(number: u32) -> ReadRefusal {
    ReadRefusal::from_number(number).unwrap_or(ReadRefusal::UnexpectedField)
}
