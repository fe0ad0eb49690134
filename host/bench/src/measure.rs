//! Replays a mix and takes the time.

use crate::engines::Engine;
use crate::mixes::{Mix, CACHE_LEN};
use menhotrac::raw::Connection;
use std::time::Instant;

/// The memory that calls are lent.
pub struct Lent {
    payload: Vec<u8>,
    cache: Vec<u8>,
}

impl Lent {
    pub fn new() -> Lent {
        Lent {
            payload: vec![7; CACHE_LEN + 1],
            cache: vec![0; CACHE_LEN],
        }
    }
}

/// One replay: nanoseconds a call, and what shows that the same was computed.
pub struct Replay {
    pub nanoseconds: f64,
    pub seen: (Connection, u32),
}

pub fn replay(engine: &mut impl Engine, mix: &Mix, lent: &mut Lent) -> Replay {
    let mut digest = 0u32;
    let start = Instant::now();
    for call in &mix.calls {
        if let Some(begin) = &call.begin {
            engine.begin(begin);
        }
        let payload = &lent.payload[..call.payload_len];
        let (answer, message) = engine.step(call, payload, &mut lent.cache[..call.cache_len]);
        digest = digest.wrapping_mul(31).wrapping_add(answer * 16 + message);
    }
    let nanoseconds = start.elapsed().as_nanos() as f64 / mix.calls.len() as f64;
    Replay {
        nanoseconds,
        seen: (engine.connection(), digest),
    }
}

pub fn median(times: &mut [f64]) -> f64 {
    times.sort_by(f64::total_cmp);
    times[times.len() / 2]
}
