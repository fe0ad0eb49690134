//! The messages to the peer, and the bit of DATA and ACK.

use crate::numbered::numbered;

numbered! {
    /// The alternating bit of a DATA and of its ACK.
    Bit {
        /// The bit of the first block each way.
        Zero = 0,
        /// The other bit.
        One = 1,
    }
}

/// A message that the host is to send.
#[derive(Clone, Copy, Debug, PartialEq, Eq)]
pub enum Message {
    /// HELLO, to which the host adds its token and its suite lists.
    Hello,
    /// CLOSE.
    Close,
    /// DAT_EXPIRED: the peer's token is spent.
    DatExpired,
    /// DAT, to which the host adds its token.
    Dat,
    /// RE_RA: the peer's prover is to attest anew.
    ReRa,
    /// RA_PROVER: the prover's message, which is [`Actions::part`](crate::Actions::part).
    RaProver,
    /// RA_VERIFIER: the verifier's message, which is [`Actions::part`](crate::Actions::part).
    RaVerifier,
    /// DATA with its bit; the block is [`Actions::part`](crate::Actions::part).
    Data(Bit),
    /// ACK with the bit of the DATA that it answers.
    Ack(Bit),
}

impl Message {
    /// The message with this number, if there is one. Only DATA and ACK take the bit.
    #[inline]
    pub const fn from_number(number: u32, bit: Bit) -> Option<Self> {
        match number {
            1 => Some(Self::Hello),
            2 => Some(Self::Close),
            3 => Some(Self::DatExpired),
            4 => Some(Self::Dat),
            5 => Some(Self::ReRa),
            6 => Some(Self::RaProver),
            7 => Some(Self::RaVerifier),
            8 => Some(Self::Data(bit)),
            9 => Some(Self::Ack(bit)),
            _ => None,
        }
    }

    /// The message's number.
    #[inline]
    pub const fn number(self) -> u32 {
        match self {
            Self::Hello => 1,
            Self::Close => 2,
            Self::DatExpired => 3,
            Self::Dat => 4,
            Self::ReRa => 5,
            Self::RaProver => 6,
            Self::RaVerifier => 7,
            Self::Data(_) => 8,
            Self::Ack(_) => 9,
        }
    }
}
