//! "The record and its tags".

use crate::edition::Edition;

/// Longest payload and shortest cache.
pub const MOST_BYTES: u32 = 4_096;

/// The states in which a tag is on, from the list "Well formed".
pub(crate) mod on {
    pub const H: &[u32] = &[1, 5, 6];
    pub const PROVER: &[u32] = &[2, 3, 5];
    pub const VERIFIER: &[u32] = &[2, 4];
    pub const DAT: &[u32] = &[2, 3, 4, 7, 8];
    pub const ACK: &[u32] = &[8];
}

/// The connection record. A tag is 0 when its driver or timer is off.
#[derive(Clone, Copy, Debug, Default, PartialEq, Eq)]
pub struct Record {
    pub state: u32,
    pub ack_flag: u32,
    pub next_send_bit: u32,
    pub expected_bit: u32,
    pub cached_len: u32,
    pub number: u32,
    pub h: u32,
    pub prover: u32,
    pub verifier: u32,
    pub dat: u32,
    pub ra: u32,
    pub ack: u32,
}

impl Record {
    /// "State 0, all else 0."
    pub fn fresh() -> Record {
        Record::default()
    }

    /// "State 9 and everything else 0 but the number."
    pub(crate) fn locked(number: u32) -> Record {
        Record {
            state: 9,
            number,
            ..Record::default()
        }
    }

    /// The list "Well formed", clause by clause.
    pub fn well_formed(&self, edition: Edition) -> bool {
        self.state <= 9 && self.flag_and_bits_fit() && self.number_fits() && self.tags_fit(edition)
    }

    fn flag_and_bits_fit(&self) -> bool {
        let flag_fits = match self.state {
            0 | 1 | 7 | 9 => self.ack_flag == 0,
            8 => self.ack_flag == 1,
            _ => self.ack_flag <= 1,
        };
        let highest_bit = if [0, 1, 9].contains(&self.state) {
            0
        } else {
            1
        };
        let longest = if self.ack_flag == 0 { 0 } else { MOST_BYTES };
        flag_fits
            && self.next_send_bit <= highest_bit
            && self.expected_bit <= highest_bit
            && self.cached_len <= longest
    }

    fn number_fits(&self) -> bool {
        let tags = [
            self.h,
            self.prover,
            self.verifier,
            self.dat,
            self.ra,
            self.ack,
        ];
        (self.state != 0 || self.number == 0) && tags.iter().all(|&tag| tag <= self.number)
    }

    fn tags_fit(&self, edition: Edition) -> bool {
        let just_in = |tag: u32, states: &[u32]| (tag != 0) == states.contains(&self.state);
        let ra_fits = match self.state {
            3 | 7 | 8 => self.ra != 0,
            5 | 6 => edition == Edition::Printed || self.ra == 0,
            _ => self.ra == 0,
        };
        just_in(self.h, on::H)
            && just_in(self.prover, on::PROVER)
            && just_in(self.verifier, on::VERIFIER)
            && just_in(self.dat, on::DAT)
            && just_in(self.ack, on::ACK)
            && ra_fits
    }
}
