//! The six timers: their tags, their reports, and the states they run in.

use crate::call::{code, Event};
use crate::record::{on, Record};

/// HP and HV share their tags with their drivers.
#[derive(Clone, Copy, Debug, PartialEq, Eq)]
pub(crate) enum Timer {
    H,
    Hp,
    Hv,
    Dat,
    Ra,
    Ack,
}

impl Timer {
    /// The timers an event 20 can name, in the order of their names.
    pub(crate) const HANDSHAKE: [Timer; 3] = [Timer::H, Timer::Hp, Timer::Hv];

    /// The timer that an event 20 to 23 reports.
    pub(crate) fn reported(event: &Event) -> Option<Timer> {
        match event.code {
            code::HANDSHAKE_TIMEOUT => Timer::HANDSHAKE.get(event.timer as usize).copied(),
            code::DAT_TIMEOUT => Some(Timer::Dat),
            code::RA_TIMEOUT => Some(Timer::Ra),
            code::ACK_TIMEOUT => Some(Timer::Ack),
            _ => None,
        }
    }

    pub(crate) fn tag(self, record: &Record) -> u32 {
        match self {
            Timer::H => record.h,
            Timer::Hp => record.prover,
            Timer::Hv => record.verifier,
            Timer::Dat => record.dat,
            Timer::Ra => record.ra,
            Timer::Ack => record.ack,
        }
    }

    /// "H, HP, HV, DAT and ACK run just where the well-formed list has their
    /// tags on." RA follows events instead and has no such set.
    pub(crate) fn runs_in(self, state: u32) -> bool {
        let set = match self {
            Timer::H => on::H,
            Timer::Hp => on::PROVER,
            Timer::Hv => on::VERIFIER,
            Timer::Dat => on::DAT,
            Timer::Ack => on::ACK,
            Timer::Ra => &[],
        };
        set.contains(&state)
    }
}
