//! The peer's messages, read from bytes in the form of Protocol Buffers.
//!
//! One field of the outer message is one message. The bytes are read once, from
//! left to right, and the first fault ends the reading; nothing is copied but
//! the suites. The benchmark measures the archive's reader beside this one.

mod bytes;
mod fault;
mod fields;
mod message;

pub use fault::{Fault, Place, What};
pub use message::{Message, Suites};

use bytes::{Bytes, DELIMITED, VARINT};
use fields::Fields;

/// Reads one message, which has to be all of the bytes.
pub fn read(bytes: &[u8]) -> Result<Message<'_>, Fault> {
    if bytes.is_empty() {
        return Err(Fault::new(Place::OuterKey, What::NoBytes));
    }
    let mut outer = Bytes(bytes);
    let (message, wire_type) = outer.key(Place::OuterKey)?;
    if !(1..=9).contains(&message) {
        return Err(Fault::new(Place::OuterKey, What::Unknown));
    }
    if wire_type != DELIMITED {
        return Err(Fault::new(Place::OuterKey, What::WireType));
    }
    let inner = outer.delimited(Place::OuterLength)?;
    let fields = Fields::new(inner, !outer.is_empty());
    let absent = &bytes[..0];
    match message {
        1 => hello(fields, absent),
        2 => nothing(fields).map(|()| Message::Close),
        3 => nothing(fields).map(|()| Message::DatExpired),
        4 => one_part(fields, absent).map(Message::Dat),
        5 => nothing(fields).map(|()| Message::ReRa),
        6 => one_part(fields, absent).map(Message::RaProver),
        7 => one_part(fields, absent).map(Message::RaVerifier),
        8 => data(fields, absent),
        _ => ack(fields),
    }
}

fn hello<'a>(mut fields: Fields<'a>, absent: &'a [u8]) -> Result<Message<'a>, Fault> {
    let mut token = absent;
    let mut provers = Suites::default();
    let mut verifiers = Suites::default();
    while fields.more()? {
        match fields.next(&[DELIMITED; 3])? {
            1 => token = fields.part()?,
            2 => provers.fill(fields.part()?)?,
            _ => verifiers.fill(fields.part()?)?,
        }
    }
    Ok(Message::Hello {
        token,
        provers,
        verifiers,
    })
}

/// What is read of a message that knows no field. This and the next three are
/// inlined, so that the bytes left stay in registers.
#[inline(always)]
fn nothing(mut fields: Fields<'_>) -> Result<(), Fault> {
    while fields.more()? {
        fields.next(&[])?;
    }
    Ok(())
}

/// What is read of a message whose one field is a part.
#[inline(always)]
fn one_part<'a>(mut fields: Fields<'a>, absent: &'a [u8]) -> Result<&'a [u8], Fault> {
    let mut part = absent;
    while fields.more()? {
        fields.next(&[DELIMITED])?;
        part = fields.part()?;
    }
    Ok(part)
}

#[inline(always)]
fn data<'a>(mut fields: Fields<'a>, absent: &'a [u8]) -> Result<Message<'a>, Fault> {
    let mut payload = absent;
    let mut bit = 0;
    while fields.more()? {
        match fields.next(&[DELIMITED, VARINT])? {
            1 => payload = fields.part()?,
            _ => bit = fields.bit()?,
        }
    }
    Ok(Message::Data { payload, bit })
}

#[inline(always)]
fn ack(mut fields: Fields<'_>) -> Result<Message<'_>, Fault> {
    let mut bit = 0;
    while fields.more()? {
        fields.next(&[VARINT])?;
        bit = fields.bit()?;
    }
    Ok(Message::Ack { bit })
}
