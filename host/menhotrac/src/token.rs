//! The peer's token, as the host sees it.

use crate::raw;
use crate::refusal::Refusal;

/// The most seconds of a margin.
pub const MAX_MARGIN: u32 = 300;

/// What a host knows of the token in a HELLO or DAT. It is good if the verdict is yes and at least one second is left:
/// see [`seconds_left`].
#[derive(Clone, Copy, Debug, PartialEq, Eq)]
pub struct Token {
    /// The host's verdict: whether it accepts the token's signature and content.
    pub verdict: bool,
    /// How many seconds before its expiry the token counts as spent, 0 to [`MAX_MARGIN`]. A larger margin is refused by
    /// [`Refusal::MarginTooLarge`].
    pub margin: u32,
    /// When the token expires, in seconds.
    pub expiry: i64,
    /// The time now, in seconds from the same origin.
    pub now: i64,
}

impl Token {
    #[inline]
    pub(crate) const fn raw(self) -> raw::Token {
        raw::Token {
            verdict: self.verdict as u32,
            margin: self.margin,
            expiry: self.expiry,
            now: self.now,
        }
    }
}

/// Expiry minus now minus margin, worked out exactly and then clamped to -86,400 to 86,400. Its one refusal is
/// [`Refusal::MarginTooLarge`].
///
/// ```
/// use menhotrac::{seconds_left, Refusal, MAX_MARGIN};
///
/// assert_eq!(seconds_left(1_060, 1_000, 0), Ok(60));
/// assert_eq!(seconds_left(1_060, 1_000, 10), Ok(50));
/// assert_eq!(seconds_left(1_060, 1_000, MAX_MARGIN), Ok(-240));
/// assert_eq!(seconds_left(1_060, 1_000, MAX_MARGIN + 1), Err(Refusal::MarginTooLarge));
/// ```
#[inline]
pub fn seconds_left(expiry: i64, now: i64, margin: u32) -> Result<i64, Refusal> {
    let left = raw::seconds_left(expiry, now, margin);
    match Refusal::from_number(left.refusal) {
        Some(refusal) => Err(refusal),
        None => Ok(left.seconds),
    }
}
