//! Keys, lengths and values, some of them odd.

use model::random::Random;

pub const VARINT: u32 = 0;
pub const DELIMITED: u32 = 2;

/// The most bytes of a varint.
const MOST_VARINT: u32 = 10;

/// Writes with random numbers. Each key, length and value is odd with a chance
/// of `odd` in 100; with 0 all are well formed.
pub struct Pen {
    pub random: Random,
    pub odd: u32,
}

/// Writes as many bytes of a varint, whatever the value needs; all but the last
/// announce more.
fn put(out: &mut Vec<u8>, value: u128, bytes: u32) {
    for index in 0..bytes {
        let more = if index + 1 < bytes { 0x80 } else { 0 };
        out.push((value >> (7 * index)) as u8 & 0x7f | more);
    }
}

/// The bytes that the value needs.
fn needed(value: u128) -> u32 {
    (u128::BITS - value.leading_zeros()).div_ceil(7).max(1)
}

impl Pen {
    /// Whether the next element is to be odd.
    pub fn odd(&mut self) -> bool {
        self.random.chance(self.odd)
    }

    /// A varint that can be read; mostly as short as can be.
    pub fn varint(&mut self, out: &mut Vec<u8>, value: u32) {
        let shortest = needed(value.into());
        let bytes = match self.random.below(8) {
            0 => shortest + self.random.below(MOST_VARINT + 1 - shortest),
            _ => shortest,
        };
        put(out, value.into(), bytes);
    }

    /// A varint that is too large, too long, or lacks its last byte.
    pub fn odd_varint(&mut self, out: &mut Vec<u8>, value: u32) {
        let high = 1 << (32 + self.random.below(38));
        let too_large = u128::from(value) | high;
        let spare = MOST_VARINT - needed(too_large);
        match self.random.below(6) {
            0 => put(out, too_large, needed(too_large)),
            1 => put(out, too_large, MOST_VARINT - self.random.below(spare + 1)),
            2 => put(out, value.into(), MOST_VARINT + 1),
            3 => put(out, u128::MAX, MOST_VARINT + 1 + self.random.below(2)),
            4 => put(out, value.into(), 1 + self.random.below(MOST_VARINT)),
            _ => {
                self.varint(out, value);
                let last = out.len() - 1;
                out[last] |= 0x80;
            }
        }
    }

    /// The key of a field; if odd, of another field, by another type, or of no
    /// field at all.
    pub fn key(&mut self, out: &mut Vec<u8>, field: u32, wire_type: u32) {
        let key = field << 3 | wire_type;
        if !self.odd() {
            return self.varint(out, key);
        }
        let random = &mut self.random;
        let other = match random.below(8) {
            0 | 1 => field << 3 | random.below(8),
            2 => random.below(12) << 3 | random.below(8),
            3 => random.below(12) << 3 | wire_type,
            4 => random.next_u32(),
            _ => return self.odd_varint(out, key),
        };
        self.varint(out, other);
    }

    /// A length; if odd, a little wrong or no length at all.
    pub fn length(&mut self, out: &mut Vec<u8>, len: usize) {
        let len = len as u32;
        if !self.odd() {
            return self.varint(out, len);
        }
        let random = &mut self.random;
        let other = match random.below(8) {
            0 | 1 => len + 1 + random.below(3),
            2 | 3 => len.saturating_sub(1 + random.below(3)),
            4 => random.next_u32(),
            _ => return self.odd_varint(out, len),
        };
        self.varint(out, other);
    }

    /// A bit; if odd, something above 1 or no number at all.
    pub fn bit(&mut self, out: &mut Vec<u8>, bit: u32) {
        if !self.odd() {
            return self.varint(out, bit);
        }
        let random = &mut self.random;
        let other = match random.below(4) {
            0 => 2 + random.below(3),
            1 => random.next_u32().max(2),
            _ => return self.odd_varint(out, bit),
        };
        self.varint(out, other);
    }

    /// A number of any width, as suites have.
    pub fn any_width(&mut self) -> u32 {
        match self.random.below(8) {
            0 => u32::MAX,
            1..=4 => self.random.below(5),
            _ => self.random.next_u32() >> self.random.below(32),
        }
    }
}

#[cfg(test)]
mod tests {
    use super::{needed, put};

    #[test]
    fn varints_take_the_bytes_they_need() {
        let mut out = Vec::new();
        for (value, bytes) in [(0, 1), (127, 1), (128, 2), (1 << 32, 5), (1 << 69, 10)] {
            out.clear();
            put(&mut out, value, needed(value));
            assert_eq!(out.len(), bytes);
            assert!(out[bytes - 1] < 0x80);
        }
    }

    #[test]
    fn longer_varints_announce_more() {
        let mut out = Vec::new();
        put(&mut out, 5, 4);
        assert_eq!(out, [0x85, 0x80, 0x80, 0x00]);
    }
}
