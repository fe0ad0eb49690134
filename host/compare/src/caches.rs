//! The two sides' caches.

use model::random::Random;
use model::MOST_BYTES;

/// Bytes that a cache may be longer than it must.
const SPARE_BYTES: u32 = 64;

/// The longest cache that is given.
const CACHE_ROOM: usize = (MOST_BYTES + SPARE_BYTES) as usize;

/// The length of the cache of a call, mostly the shortest that is taken.
pub fn draw_len(random: &mut Random) -> usize {
    let len = match random.below(100) {
        0 => MOST_BYTES - 1,
        1 => 0,
        2 => random.below(MOST_BYTES),
        3..=12 => MOST_BYTES + random.below(SPARE_BYTES + 1),
        _ => MOST_BYTES,
    };
    len as usize
}

/// Both caches, and what both have to hold.
pub struct Caches {
    pub model: Vec<u8>,
    pub product: Vec<u8>,
    pub wanted: Vec<u8>,
}

impl Caches {
    /// Caches that begin with the first of these bytes.
    pub fn new(bytes: &[u8]) -> Caches {
        let cache = bytes[..CACHE_ROOM].to_vec();
        Caches {
            model: cache.clone(),
            product: cache.clone(),
            wanted: cache,
        }
    }

    /// Compares both caches whole, also behind the length they were given with.
    pub fn agree(&self) -> bool {
        self.model == self.wanted && self.product == self.wanted
    }

    /// Where the model's and the archive's cache first differ from what they
    /// have to hold.
    pub fn wrong_at(&self) -> [Option<usize>; 2] {
        let wrong_at = |cache: &[u8]| (0..CACHE_ROOM).find(|&at| cache[at] != self.wanted[at]);
        [wrong_at(&self.model), wrong_at(&self.product)]
    }
}
