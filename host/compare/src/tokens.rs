//! Random verdicts, margins and times of tokens.

use menhotrac::raw::Token;
use model::random::Random;
use model::MOST_MARGIN;

const DAY: i64 = 86_400;

/// Times whose differences lie at the ends of what can be told.
const TIMES: [i64; 12] = [
    i64::MIN,
    i64::MIN + 1,
    -DAY - 1,
    -DAY,
    -1,
    0,
    1,
    DAY - 1,
    DAY,
    DAY + 1,
    i64::MAX - 1,
    i64::MAX,
];

/// What a host says of a token: mostly one that is good.
pub fn mostly_good(random: &mut Random) -> Token {
    let verdict = verdict(random);
    let margin = margin(random);
    let (expiry, now) = mostly_good_times(random, margin);
    Token {
        verdict,
        margin,
        expiry,
        now,
    }
}

/// A verdict, mostly yes, sometimes neither yes nor no.
fn verdict(random: &mut Random) -> u32 {
    match random.below(100) {
        0..=4 => random.at_least(2),
        5..=8 => 0,
        _ => 1,
    }
}

/// A margin, mostly one that is taken, often at an end.
pub fn margin(random: &mut Random) -> u32 {
    match random.below(100) {
        0..=29 => 0,
        30..=49 => random.pick(&[1, MOST_MARGIN - 1, MOST_MARGIN]),
        50..=54 => random.pick(&[MOST_MARGIN + 1, u32::MAX]),
        55..=57 => random.at_least(MOST_MARGIN + 1),
        _ => random.below(MOST_MARGIN + 1),
    }
}

/// A token's expiry and the time now, mostly with seconds left after the margin.
fn mostly_good_times(random: &mut Random, margin: u32) -> (i64, i64) {
    let now = match random.below(3) {
        0 => 1_000,
        1 => i64::from(random.next_u32()),
        _ => random.next_i64(),
    };
    let spent = now.saturating_add(margin.into());
    match random.below(40) {
        0..=2 => any_times(random),
        3..=9 => (spent.saturating_add(random.below(2).into()), now),
        _ => (spent.saturating_add(random.below(100_000).into()), now),
    }
}

/// Two times, as far apart or as near as can be, or about a day and a margin.
pub fn any_times(random: &mut Random) -> (i64, i64) {
    let time = random.next_i64();
    match random.below(7) {
        0 => (random.pick(&TIMES), random.pick(&TIMES)),
        1 => (time, time.wrapping_add(random.pick(&TIMES))),
        2 => (time, time.wrapping_add(random.below(5).into())),
        3 => (random.pick(&TIMES), time),
        4 => (time, random.next_i64()),
        _ => about_a_day(random, time),
    }
}

/// Two times whose difference is a day, more or less by up to two margins: one of
/// them any time, or at an end of 64 bits.
fn about_a_day(random: &mut Random, time: i64) -> (i64, i64) {
    let day = random.pick(&[-DAY, DAY]);
    let most = 2 * MOST_MARGIN;
    let apart = day - i64::from(most) + i64::from(random.below(2 * most + 1));
    let first = random.pick(&[time, i64::MIN, i64::MAX]);
    let second = first.wrapping_sub(apart);
    random.pick(&[(first, second), (second, first)])
}
