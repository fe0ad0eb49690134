//! Damage to bytes without regard to what they mean.

use model::random::Random;

/// Bytes that mean something somewhere: keys, and ends of what can be told.
const TELLING: [u8; 16] = [
    0x00, 0x01, 0x02, 0x08, 0x0a, 0x10, 0x12, 0x1a, 0x22, 0x42, 0x4a, 0x52, 0x7f, 0x80, 0x81, 0xff,
];

/// A byte: often a telling one, else small, else any.
pub fn byte(random: &mut Random) -> u8 {
    match random.below(4) {
        0 | 1 => random.pick(&TELLING),
        2 => random.below(24) as u8,
        _ => random.next_u32() as u8,
    }
}

/// Changes, removes or inserts some bytes, mostly near the front, where keys and
/// lengths stand.
pub fn damage(random: &mut Random, bytes: &mut Vec<u8>) {
    for _ in 0..1 + random.below(3) {
        if bytes.is_empty() {
            return;
        }
        let reach = match random.below(3) {
            0 => bytes.len(),
            _ => bytes.len().min(12),
        };
        let at = random.below(reach as u32) as usize;
        match random.below(6) {
            0 => bytes[at] = byte(random),
            1 => bytes[at] = bytes[at].wrapping_add(1),
            2 => bytes[at] = bytes[at].wrapping_sub(1),
            3 => bytes[at] ^= 1 << random.below(8),
            4 => drop(bytes.remove(at)),
            _ => bytes.insert(at, byte(random)),
        }
    }
}

/// Adds one byte or some.
pub fn append(random: &mut Random, bytes: &mut Vec<u8>) {
    for _ in 0..1 + random.below(3) {
        bytes.push(byte(random));
    }
}
