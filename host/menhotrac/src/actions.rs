//! What a host is to do after a handled call: document 01's order sheet.

use crate::message::{Bit, Message};
use crate::numbered::numbered;
use crate::raw;
use crate::suites::Suites;
use crate::tag::Tag;

/// The slices that a sheet's payload can be a part of.
const OF_EVENT: u32 = 1;
const OF_CACHE: u32 = 2;

numbered! {
    /// An order to a driver.
    DriverOrder {
        /// Start it, or start it anew; its reports carry [`Actions::tag`].
        Start = 1,
        /// Stop it.
        Stop = 2,
        /// Give it [`Actions::part`], a message of its counterpart at the peer. Document 01's "pass on".
        Forward = 3,
    }
}

numbered! {
    /// An order to a timer whose length the host chooses.
    TimerOrder {
        /// Start it, or start it anew; its timeout carries [`Actions::tag`].
        Start = 1,
        /// Cancel it.
        Cancel = 2,
    }
}

/// An order to the DAT timer, whose length the peer's token decides.
#[derive(Clone, Copy, Debug, PartialEq, Eq)]
pub enum DatTimerOrder {
    /// Start it, or start it anew; its timeout carries [`Actions::tag`].
    Start {
        /// The seconds that the token is still good for, 1 to 86,400.
        seconds: u32,
    },
    /// Cancel it.
    Cancel,
}

/// The orders to the six timers.
#[derive(Clone, Copy, Debug, Default, PartialEq, Eq)]
pub struct Timers {
    /// H, of the handshake and of a token's return.
    pub h: Option<TimerOrder>,
    /// HP, of the prover.
    pub hp: Option<TimerOrder>,
    /// HV, of the verifier.
    pub hv: Option<TimerOrder>,
    /// DAT, of the peer's token.
    pub dat: Option<DatTimerOrder>,
    /// RA, from one attestation of the peer to the next.
    pub ra: Option<TimerOrder>,
    /// ACK, of the block that waits.
    pub ack: Option<TimerOrder>,
}

/// What the host is to do. The slots are independent of each other; the default is the empty sheet.
#[derive(Clone, Copy, Debug, Default, PartialEq, Eq)]
pub struct Actions<'a> {
    /// The tag of everything that this call starts.
    pub tag: Tag,
    /// The message to send.
    pub message: Option<Message>,
    /// The order to the prover.
    pub prover: Option<DriverOrder>,
    /// The order to the verifier.
    pub verifier: Option<DriverOrder>,
    /// The orders to the timers.
    pub timers: Timers,
    /// The suites that the drivers run from now on, where the connection opens.
    pub suites: Option<Suites>,
    /// Whether [`Actions::part`] goes to the application. Document 01's "hand-up".
    pub deliver: bool,
    /// The bytes that go with RA_PROVER, RA_VERIFIER or DATA, with [`DriverOrder::Forward`], or to the application;
    /// else none. They are a part of the event's payload or of the cache, not a copy.
    pub part: &'a [u8],
}

impl<'a> Actions<'a> {
    #[inline(always)]
    pub(crate) fn of(
        sheet: &raw::Actions,
        handled: u32,
        payload: &'a [u8],
        cache: &'a [u8],
    ) -> Self {
        Self {
            tag: Tag(handled),
            message: message(sheet),
            prover: DriverOrder::from_number(sheet.prover),
            verifier: DriverOrder::from_number(sheet.verifier),
            timers: timers(sheet),
            suites: suites(sheet),
            deliver: sheet.deliver != 0,
            part: part(sheet, payload, cache),
        }
    }
}

#[inline]
fn message(sheet: &raw::Actions) -> Option<Message> {
    let bit = Bit::from_number(sheet.bit)?;
    Message::from_number(sheet.message, bit)
}

#[inline]
fn timers(sheet: &raw::Actions) -> Timers {
    Timers {
        h: TimerOrder::from_number(sheet.h),
        hp: TimerOrder::from_number(sheet.hp),
        hv: TimerOrder::from_number(sheet.hv),
        dat: dat_timer(sheet),
        ra: TimerOrder::from_number(sheet.ra),
        ack: TimerOrder::from_number(sheet.ack),
    }
}

#[inline]
fn dat_timer(sheet: &raw::Actions) -> Option<DatTimerOrder> {
    match TimerOrder::from_number(sheet.dat)? {
        TimerOrder::Start => Some(DatTimerOrder::Start {
            seconds: sheet.dat_seconds,
        }),
        TimerOrder::Cancel => Some(DatTimerOrder::Cancel),
    }
}

/// The suites' slots alone do not say whether they are chosen, as 0 is a suite like any other. Both drivers start just
/// where the connection opens.
#[inline]
fn suites(sheet: &raw::Actions) -> Option<Suites> {
    const START: u32 = DriverOrder::Start.number();
    if sheet.prover != START || sheet.verifier != START {
        return None;
    }
    Some(Suites {
        verifier: sheet.verifier_suite,
        prover: sheet.prover_suite,
    })
}

/// A slice shorter than the sheet's length gives an empty part, as document 01 says.
#[inline]
fn part<'a>(sheet: &raw::Actions, payload: &'a [u8], cache: &'a [u8]) -> &'a [u8] {
    let slice = match sheet.payload_slice {
        OF_EVENT => payload,
        OF_CACHE => cache,
        _ => &[],
    };
    slice.get(..sheet.payload_len as usize).unwrap_or(&[])
}
