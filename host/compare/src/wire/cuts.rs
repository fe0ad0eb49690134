//! Messages cut at every place, one after another.

use super::pen::{Pen, DELIMITED};
use super::written::{self, Written};

/// The longest message that is cut; of a longer one most cuts are alike.
const LONGEST: usize = 300;

/// A message, and where it is to be cut next.
#[derive(Default)]
pub struct Cuts {
    /// The whole message, or its inner bytes.
    bytes: Vec<u8>,
    number: u32,
    at: usize,
}

/// A well-formed message, not too long.
fn message(pen: &mut Pen, pool: &[u8]) -> Written {
    pen.odd = 0;
    loop {
        let written = written::message(pen, pool, Default::default());
        if written.bytes.len() <= LONGEST {
            return written;
        }
    }
}

impl Cuts {
    /// The next beginning of a message. The rest of it stands behind the slice,
    /// where no reader may look.
    pub fn of_whole(&mut self, pen: &mut Pen, pool: &[u8]) -> &[u8] {
        if self.at == self.bytes.len() {
            self.bytes = message(pen, pool).bytes;
            self.at = 0;
        }
        self.at += 1;
        &self.bytes[..self.at - 1]
    }

    /// A message with the next beginning of some inner bytes, and a length that
    /// fits. In half of the inputs the rest follows, outside the message.
    pub fn of_inner(&mut self, pen: &mut Pen, pool: &[u8]) -> Vec<u8> {
        while self.at == self.bytes.len() {
            let written = message(pen, pool);
            self.bytes = written.bytes[written.inner..].to_vec();
            self.number = written.reading.message.number;
            self.at = 0;
        }
        pen.odd = 0;
        let mut bytes = Vec::new();
        pen.key(&mut bytes, self.number, DELIMITED);
        pen.length(&mut bytes, self.at);
        let followed = pen.random.chance(50);
        let end = if followed { self.bytes.len() } else { self.at };
        bytes.extend_from_slice(&self.bytes[..end]);
        self.at += 1;
        bytes
    }
}
