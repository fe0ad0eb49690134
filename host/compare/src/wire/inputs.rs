//! The kinds of inputs.

use super::cuts::Cuts;
use super::damage;
use super::pen::Pen;
use super::written::{self, Written};
use menhotrac::raw::SuiteEntries;
use model::random::Random;
use std::borrow::Cow;

/// The chance in 100 that an element is odd, where any may be.
const ODD: u32 = 8;

/// The longest rubbish.
const MOST_RUBBISH: u32 = 24;

#[derive(Clone, Copy, Debug, PartialEq, Eq)]
pub enum Kind {
    /// A message as it should be.
    WellFormed,
    /// A message with some of its elements odd.
    Odd,
    /// A message whose bytes are damaged.
    Damaged,
    /// A message with bytes or another message behind it.
    Followed,
    /// The beginning of a message.
    Cut,
    /// A message with the beginning of some inner bytes.
    CutInside,
    /// Bytes that never were a message.
    Rubbish,
}

/// Writes the inputs of one thread.
pub struct Inputs<'a> {
    pen: Pen,
    /// Bytes that parts are taken from.
    pool: &'a [u8],
    cuts: Cuts,
    inner_cuts: Cuts,
}

impl<'a> Inputs<'a> {
    pub fn new(random: Random, pool: &'a [u8]) -> Inputs<'a> {
        Inputs {
            pen: Pen { random, odd: 0 },
            pool,
            cuts: Cuts::default(),
            inner_cuts: Cuts::default(),
        }
    }

    /// The random numbers, for what is drawn beside the bytes.
    pub fn random(&mut self) -> &mut Random {
        &mut self.pen.random
    }

    /// A message as it should be, for readers that are lent these lists.
    pub fn well_formed(&mut self, lists: [SuiteEntries; 2]) -> Written {
        self.pen.odd = 0;
        written::message(&mut self.pen, self.pool, lists)
    }

    pub fn draw(&mut self, kind: Kind) -> Cow<'_, [u8]> {
        match kind {
            Kind::WellFormed => self.message(0).into(),
            Kind::Odd => self.message(ODD).into(),
            Kind::Damaged => self.damaged().into(),
            Kind::Followed => self.followed().into(),
            Kind::Cut => self.cuts.of_whole(&mut self.pen, self.pool).into(),
            Kind::CutInside => self.inner_cuts.of_inner(&mut self.pen, self.pool).into(),
            Kind::Rubbish => self.rubbish().into(),
        }
    }

    fn message(&mut self, odd: u32) -> Vec<u8> {
        self.pen.odd = odd;
        written::message(&mut self.pen, self.pool, Default::default()).bytes
    }

    fn damaged(&mut self) -> Vec<u8> {
        let odd = self.pen.random.pick(&[0, 0, ODD]);
        let mut bytes = self.message(odd);
        damage::damage(&mut self.pen.random, &mut bytes);
        bytes
    }

    fn followed(&mut self) -> Vec<u8> {
        let odd = self.pen.random.pick(&[0, 0, 0, ODD]);
        let mut bytes = self.message(odd);
        if self.pen.random.chance(50) {
            damage::append(&mut self.pen.random, &mut bytes);
        } else {
            bytes.extend(self.message(odd));
        }
        bytes
    }

    fn rubbish(&mut self) -> Vec<u8> {
        let random = &mut self.pen.random;
        let len = random.below(MOST_RUBBISH + 1);
        (0..len).map(|_| damage::byte(random)).collect()
    }
}
