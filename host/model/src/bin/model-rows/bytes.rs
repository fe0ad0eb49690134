//! Bytes, which are written in pieces.

use crate::items::{items, number};

/// Most bytes of a group.
const MOST_BYTES: usize = 32_768;

/// The bytes of a group, those of all its pieces one after the other.
pub fn bytes(group: &[u8]) -> Option<Vec<u8>> {
    let mut bytes = Vec::new();
    for piece in items(group) {
        let (count, unit) = read_piece(piece)?;
        if unit.len().saturating_mul(count) > MOST_BYTES - bytes.len() {
            return None;
        }
        bytes.extend(unit.repeat(count));
    }
    Some(bytes)
}

/// A piece: how many times some bytes stand there. With a count it is one byte.
fn read_piece(piece: &[u8]) -> Option<(usize, Vec<u8>)> {
    let Some(star) = piece.iter().position(|&byte| byte == b'*') else {
        return Some((1, hexadecimal(piece)?));
    };
    let count = number(&piece[..star])?;
    let unit = hexadecimal(&piece[star + 1..])?;
    (unit.len() == 1).then_some((count as usize, unit))
}

/// Two digits a byte.
fn hexadecimal(digits: &[u8]) -> Option<Vec<u8>> {
    let pairs = digits.chunks(2);
    pairs.map(byte).collect()
}

fn byte(pair: &[u8]) -> Option<u8> {
    match *pair {
        [high, low] => Some(digit(high)? << 4 | digit(low)?),
        _ => None,
    }
}

fn digit(character: u8) -> Option<u8> {
    match character {
        b'0'..=b'9' => Some(character - b'0'),
        b'a'..=b'f' => Some(character - b'a' + 10),
        _ => None,
    }
}
