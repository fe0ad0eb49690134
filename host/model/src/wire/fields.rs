//! The fields inside a message.

use super::bytes::Bytes;
use super::fault::{Fault, Place, What};

pub(super) struct Fields<'a> {
    bytes: Bytes<'a>,
    /// Whether something follows the outer field.
    followed: bool,
    /// A bit for each field that has come.
    seen: u32,
}

impl<'a> Fields<'a> {
    pub fn new(inner: &'a [u8], followed: bool) -> Fields<'a> {
        Fields {
            bytes: Bytes(inner),
            followed,
            seen: 0,
        }
    }

    /// Whether another field follows. If none does, all bytes have to be read.
    #[inline]
    pub fn more(&self) -> Result<bool, Fault> {
        if !self.bytes.is_empty() {
            return Ok(true);
        }
        if self.followed {
            return Err(Fault::new(Place::After, What::Trailing));
        }
        Ok(false)
    }

    /// The number of the next field. The message knows a field for each of the
    /// wire types, numbered from 1.
    #[inline]
    pub fn next(&mut self, wire_types: &[u32]) -> Result<u32, Fault> {
        let (field, wire_type) = self.bytes.key(Place::Key)?;
        let Some(&known) = wire_types.get(field.wrapping_sub(1) as usize) else {
            return Err(Fault::new(Place::Key, What::Unknown));
        };
        if self.seen & 1 << field != 0 {
            return Err(Fault::new(Place::Key, What::Repeated));
        }
        if wire_type != known {
            return Err(Fault::new(Place::Key, What::WireType));
        }
        self.seen |= 1 << field;
        Ok(field)
    }

    /// The content of the field, where that is a part or a list.
    #[inline]
    pub fn part(&mut self) -> Result<&'a [u8], Fault> {
        self.bytes.delimited(Place::Length)
    }

    /// The content of the field, where that is a bit.
    #[inline]
    pub fn bit(&mut self) -> Result<u32, Fault> {
        self.bytes.bit()
    }
}
