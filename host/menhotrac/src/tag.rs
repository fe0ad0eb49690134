//! Tags, which tell the reports of a driver's or timer's latest start from those of earlier ones.

use crate::raw;

/// The number of the handled event that started a driver or timer. Its reports carry it back; a report with another
/// tag is ignored.
#[derive(Clone, Copy, Debug, Default, PartialEq, Eq)]
pub struct Tag(
    /// The number. A driver or timer that runs never has 0.
    pub u32,
);

impl Tag {
    const fn of_running(number: u32) -> Option<Self> {
        match number {
            0 => None,
            _ => Some(Self(number)),
        }
    }
}

/// The tags of a record, none for what is off.
#[derive(Clone, Copy, Debug, Default, PartialEq, Eq)]
pub struct Tags {
    /// Of the handshake timer H.
    pub h: Option<Tag>,
    /// Of the prover and its timer HP.
    pub prover: Option<Tag>,
    /// Of the verifier and its timer HV.
    pub verifier: Option<Tag>,
    /// Of the DAT timer.
    pub dat: Option<Tag>,
    /// Of the RA timer.
    pub ra: Option<Tag>,
    /// Of the ACK timer.
    pub ack: Option<Tag>,
}

impl Tags {
    pub(crate) const fn of(record: &raw::Connection) -> Self {
        Self {
            h: Tag::of_running(record.h),
            prover: Tag::of_running(record.prover),
            verifier: Tag::of_running(record.verifier),
            dat: Tag::of_running(record.dat),
            ra: Tag::of_running(record.ra),
            ack: Tag::of_running(record.ack),
        }
    }
}
