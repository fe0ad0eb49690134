//! What all calls of one thread share.

use crate::coverage::Coverage;
use model::random::Random;
use model::Edition;

/// The model's edition, the random numbers, the bytes that payloads are cut from,
/// and what was seen.
pub struct Session<'a> {
    pub edition: Edition,
    pub random: Random,
    pub bytes: &'a [u8],
    pub coverage: Coverage,
}
