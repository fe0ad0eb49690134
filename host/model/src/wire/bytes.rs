//! Keys, lengths and values, taken from the front of the bytes.

use super::fault::{Fault, Place, What};

/// The wire types in use.
pub(super) const VARINT: u32 = 0;
pub(super) const DELIMITED: u32 = 2;

/// Where the bits of each byte of a varint go. Those of the last five bytes make
/// the value too large wherever they go, and at 63 the tenth's would not fit.
const SHIFTS: [u32; 10] = [0, 7, 14, 21, 28, 35, 42, 49, 56, 56];

/// The bytes that are left within some bounds.
#[derive(Clone, Copy)]
pub(super) struct Bytes<'a>(pub &'a [u8]);

impl<'a> Bytes<'a> {
    pub fn is_empty(&self) -> bool {
        self.0.is_empty()
    }

    /// The number and the wire type of a field.
    #[inline]
    pub fn key(&mut self, place: Place) -> Result<(u32, u32), Fault> {
        let key = self.number(place)?;
        Ok((key >> 3, key & 7))
    }

    /// A length and as many bytes.
    #[inline]
    pub fn delimited(&mut self, place: Place) -> Result<&'a [u8], Fault> {
        let len = self.number(place)?;
        let Some((taken, left)) = self.0.split_at_checked(len as usize) else {
            return Err(Fault::new(place, What::PastEnd));
        };
        self.0 = left;
        Ok(taken)
    }

    #[inline]
    pub fn bit(&mut self) -> Result<u32, Fault> {
        match self.number(Place::Bit)? {
            bit @ 0..=1 => Ok(bit),
            _ => Err(Fault::new(Place::Bit, What::AboveOne)),
        }
    }

    /// A varint, quick where it has one byte, as keys and lengths mostly do.
    #[inline]
    pub fn number(&mut self, place: Place) -> Result<u32, Fault> {
        if let [byte @ 0..0x80, ref left @ ..] = *self.0 {
            self.0 = left;
            return Ok(byte.into());
        }
        let (value, left) = longer_varint(self.0).map_err(|what| Fault::new(place, what))?;
        self.0 = left;
        Ok(value)
    }

    /// A varint, quick whatever its length, as entries may have any.
    #[inline]
    pub fn varint(&mut self, place: Place) -> Result<u32, Fault> {
        let (value, left) = varint(self.0).map_err(|what| Fault::new(place, what))?;
        self.0 = left;
        Ok(value)
    }
}

/// The varint at the front, which has to fit 32 bits, and what is left behind it.
#[inline(always)]
fn varint(bytes: &[u8]) -> Result<(u32, &[u8]), What> {
    let mut left = bytes.iter();
    let mut value = 0;
    for shift in SHIFTS {
        let &byte = left.next().ok_or(What::Cut)?;
        value |= u64::from(byte & 0x7f) << shift;
        if byte < 0x80 {
            let value = u32::try_from(value).map_err(|_| What::TooLarge)?;
            return Ok((value, left.as_slice()));
        }
    }
    Err(What::TooLong)
}

/// The same, kept out of the code that seldom needs it.
#[inline(never)]
fn longer_varint(bytes: &[u8]) -> Result<(u32, &[u8]), What> {
    varint(bytes)
}
