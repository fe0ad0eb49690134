//! Random messages, and what is to be read from them if nothing is odd.

use super::pen::{Pen, DELIMITED, VARINT};
use crate::reading::Reading;
use menhotrac::raw::SuiteEntries;

/// The fields in the order in which they stand, then zeros. There is room for
/// those of a HELLO and one that is odd.
pub type Order = [u32; 4];

/// The most suites of a list.
const MOST_SUITES: usize = 16;

/// What a field holds.
#[derive(Clone, Copy, PartialEq, Eq)]
enum Holds {
    Part,
    List,
    Bit,
}

/// What the fields of a message hold, numbered from 1.
fn fields(message: u32) -> &'static [Holds] {
    match message {
        1 => &[Holds::Part, Holds::List, Holds::List],
        4 | 6 | 7 => &[Holds::Part],
        8 => &[Holds::Part, Holds::Bit],
        9 => &[Holds::Bit],
        _ => &[],
    }
}

/// A message as it was written.
pub struct Written {
    pub bytes: Vec<u8>,
    /// Where the inner bytes begin, if nothing is odd.
    pub inner: usize,
    pub order: Order,
    /// What is to be read if nothing is odd.
    pub reading: Reading,
}

/// A message under way: its inner bytes, and what was written into them.
struct Draft<'a> {
    pen: &'a mut Pen,
    /// Bytes that parts are taken from.
    pool: &'a [u8],
    inner: Vec<u8>,
    reading: Reading,
}

/// Writes a message, maybe with odd elements. The lists are those that a reader
/// is to be lent.
pub(super) fn message(pen: &mut Pen, pool: &[u8], lists: [SuiteEntries; 2]) -> Written {
    let number = pen.random.pick(&[1, 1, 1, 2, 3, 4, 5, 6, 7, 8, 8, 9, 9]);
    let order = draw_order(pen, number);
    let before = if number == 1 {
        Default::default()
    } else {
        lists
    };
    let mut draft = Draft {
        pen,
        pool,
        inner: Vec::new(),
        reading: Reading::before(before),
    };
    draft.reading.message.number = number;
    for field in order.into_iter().filter(|&field| field != 0) {
        draft.field(number, field);
    }
    draft.wrapped(order)
}

/// Some of the message's fields, in any order. If odd, one comes again or there
/// is one more; oftener where the message has none that could be odd.
fn draw_order(pen: &mut Pen, message: u32) -> Order {
    let known = fields(message).len() as u32;
    let mut order = Order::default();
    let mut slots = order.iter_mut();
    let mut left: Vec<u32> = (1..=known).collect();
    while !left.is_empty() && pen.random.chance(85) {
        let at = pen.random.below(left.len() as u32) as usize;
        if let Some(slot) = slots.next() {
            *slot = left.swap_remove(at);
        }
    }
    let often = if known == 0 { 6 } else { 1 };
    if let (true, Some(slot)) = (pen.random.chance(often * pen.odd), slots.next()) {
        *slot = 1 + pen.random.below(known + 1);
    }
    order
}

impl Draft<'_> {
    fn field(&mut self, message: u32, field: u32) {
        let holds = fields(message).get(field as usize - 1);
        let wire_type = match holds {
            Some(Holds::Bit) => VARINT,
            _ => DELIMITED,
        };
        self.pen.key(&mut self.inner, field, wire_type);
        match holds {
            Some(Holds::Bit) => self.bit(),
            Some(Holds::List) => self.list(field),
            _ => self.part(),
        }
    }

    fn bit(&mut self) {
        let bit = self.pen.random.below(2);
        self.pen.bit(&mut self.inner, bit);
        self.reading.message.bit = bit;
    }

    fn part(&mut self) {
        let random = &mut self.pen.random;
        let len = match random.below(200) {
            0 => 16_370 + random.below(20),
            1 => 4_090 + random.below(12),
            2..=19 => 115 + random.below(20),
            20..=49 => 0,
            _ => random.below(24),
        };
        let first = random.below(self.pool.len() as u32 - len) as usize;
        self.pen.length(&mut self.inner, len as usize);
        self.reading.message.place = self.inner.len();
        self.reading.message.size = len as usize;
        let part = &self.pool[first..][..len as usize];
        self.inner.extend_from_slice(part);
    }

    fn list(&mut self, field: u32) {
        let mut list = Vec::new();
        let mut suites = SuiteEntries::default();
        let count = self.pen.random.below(MOST_SUITES as u32 + 1) as usize;
        for suite in &mut suites[..count] {
            *suite = self.pen.any_width();
            self.entry(&mut list, *suite);
        }
        let message = &mut self.reading.message;
        match field {
            2 => (self.reading.provers, message.provers) = (suites, count),
            _ => (self.reading.verifiers, message.verifiers) = (suites, count),
        }
        if self.pen.odd() {
            self.lengthen(&mut list, count);
        }
        self.pen.length(&mut self.inner, list.len());
        self.inner.extend_from_slice(&list);
    }

    /// An entry, much more seldom odd than other elements since there are many.
    fn entry(&mut self, list: &mut Vec<u8>, suite: u32) {
        if self.pen.odd() && self.pen.random.chance(10) {
            self.pen.odd_varint(list, suite);
        } else {
            self.pen.varint(list, suite);
        }
    }

    /// Fills the list up, and adds entries that are too many; the first of these
    /// may be odd.
    fn lengthen(&mut self, list: &mut Vec<u8>, count: usize) {
        for _ in count..MOST_SUITES {
            self.pen.varint(list, 0);
        }
        let suite = self.pen.any_width();
        if self.pen.random.chance(40) {
            self.pen.odd_varint(list, suite);
        }
        for _ in 0..self.pen.random.below(4) {
            self.pen.varint(list, suite);
        }
    }

    /// The whole message, with the part's place in all of its bytes.
    fn wrapped(mut self, order: Order) -> Written {
        let mut bytes = Vec::new();
        let number = self.reading.message.number;
        self.pen.key(&mut bytes, number, DELIMITED);
        self.pen.length(&mut bytes, self.inner.len());
        let inner = bytes.len();
        let has_part = fields(number).first() == Some(&Holds::Part) && order.contains(&1);
        if has_part {
            self.reading.message.place += inner;
        }
        bytes.append(&mut self.inner);
        Written {
            bytes,
            inner,
            order,
            reading: self.reading,
        }
    }
}
