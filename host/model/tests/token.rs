//! "Seconds left", asked alone, with the margin of request #104.

use model::seconds_left;

const MARGINS: [u32; 4] = [0, 1, 299, 300];

/// Expiry minus now minus margin, and what it is clamped to.
const CLAMPED: [(i64, i64); 9] = [
    (86_401, 86_400),
    (86_400, 86_400),
    (86_399, 86_399),
    (1, 1),
    (0, 0),
    (-1, -1),
    (-86_399, -86_399),
    (-86_400, -86_400),
    (-86_401, -86_400),
];

/// An expiry and a now that far apart, one of them the given end of 64 bits.
fn times(end: i64, apart: i64) -> (i64, i64) {
    let expiry_at_end = end.checked_sub(apart).map(|now| (end, now));
    let now_at_end = end.checked_add(apart).map(|expiry| (expiry, end));
    expiry_at_end.or(now_at_end).expect("one of them fits")
}

#[test]
fn thresholds_at_both_ends_of_64_bits() {
    for end in [i64::MIN, i64::MAX] {
        for margin in MARGINS {
            for (exact, left) in CLAMPED {
                let (expiry, now) = times(end, exact + i64::from(margin));
                let came = seconds_left(expiry, now, margin);
                assert_eq!(came, Ok(left), "{expiry} - {now} - {margin}");
            }
        }
    }
}

#[test]
fn furthest_times_with_every_margin() {
    for margin in MARGINS {
        assert_eq!(seconds_left(i64::MAX, i64::MIN, margin), Ok(86_400));
        assert_eq!(seconds_left(i64::MIN, i64::MAX, margin), Ok(-86_400));
    }
}

#[test]
fn any_other_margin_is_refused() {
    for margin in [301, u32::MAX] {
        for (expiry, now) in [(1_060, 1_000), (0, 0), (i64::MAX, i64::MIN)] {
            assert_eq!(seconds_left(expiry, now, margin), Err(9));
        }
    }
}
