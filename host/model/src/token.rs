//! "Tokens and suites", the token, with the margin of request #104.

/// Largest margin.
pub const MOST_MARGIN: u32 = 300;

/// A day, the furthest a token's end is looked at either way.
const DAY: i128 = 86_400;

/// Whether a margin is too large, the fault of refusal 9.
pub(crate) fn too_large(margin: u32) -> bool {
    margin > MOST_MARGIN
}

/// "Expiry minus now minus margin, exact, then clamped"; or refusal 9, whose
/// seconds are 0.
pub fn seconds_left(expiry: i64, now: i64, margin: u32) -> Result<i64, u32> {
    if too_large(margin) {
        return Err(9);
    }
    let exact = i128::from(expiry) - i128::from(now) - i128::from(margin);
    Ok(exact.clamp(-DAY, DAY) as i64)
}

/// "The verdict is yes and seconds left is at least 1."
pub(crate) fn is_good(verdict: bool, seconds_left: i64) -> bool {
    verdict && seconds_left >= 1
}
