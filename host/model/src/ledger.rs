//! The audit: what runs in a host that carries out the order sheets, kept from the
//! events, the answers and the sheets alone.

use crate::call::{code, Event};
use crate::orders::{driver, timer, Sheet};
use crate::record::Record;
use crate::step::Answer;
use crate::timers::Timer;

/// The tags that timers and drivers run with; 0 for one that is off.
#[derive(Clone, Copy, Debug, Default, PartialEq, Eq)]
pub struct Running {
    h: u32,
    hp: u32,
    hv: u32,
    dat: u32,
    ra: u32,
    ack: u32,
    prover: u32,
    verifier: u32,
}

impl Running {
    /// What the record's tags say. HP and HV share those of their drivers.
    pub fn recorded(record: &Record) -> Running {
        Running {
            h: record.h,
            hp: record.prover,
            hv: record.verifier,
            dat: record.dat,
            ra: record.ra,
            ack: record.ack,
            prover: record.prover,
            verifier: record.verifier,
        }
    }

    /// The timer or driver whose end an event reports.
    fn reported(&mut self, event: &Event) -> Option<&mut u32> {
        match event.code {
            code::RA_VERIFIER_OK | code::RA_VERIFIER_FAILED => Some(&mut self.verifier),
            code::RA_PROVER_OK | code::RA_PROVER_FAILED => Some(&mut self.prover),
            _ => Timer::reported(event).map(|timer| self.of(timer)),
        }
    }

    fn of(&mut self, timer: Timer) -> &mut u32 {
        match timer {
            Timer::H => &mut self.h,
            Timer::Hp => &mut self.hp,
            Timer::Hv => &mut self.hv,
            Timer::Dat => &mut self.dat,
            Timer::Ra => &mut self.ra,
            Timer::Ack => &mut self.ack,
        }
    }
}

/// What runs, and how many calls were handled since the record was fresh.
#[derive(Clone, Debug, Default)]
pub struct Ledger {
    pub running: Running,
    handled: u32,
}

impl Ledger {
    /// Takes off what the event reports, unless the call was refused, and then
    /// carries out the sheet's orders. False if one of them has no meaning, or is a
    /// cancel, a stop or a pass-on to what is off.
    pub fn hear(&mut self, event: &Event, answer: Answer, sheet: &Sheet) -> bool {
        let seen = !matches!(answer, Answer::Refused(_));
        if let Some(tag) = self.running.reported(event) {
            if seen && *tag == event.tag {
                *tag = 0;
            }
        }
        self.handled += u32::from(answer == Answer::Handled);
        let running = &mut self.running;
        let timers = [
            (&mut running.h, sheet.h),
            (&mut running.hp, sheet.hp),
            (&mut running.hv, sheet.hv),
            (&mut running.dat, sheet.dat),
            (&mut running.ra, sheet.ra),
            (&mut running.ack, sheet.ack),
        ]
        .map(|(tag, order)| obey(tag, order, TO_TIMER, self.handled));
        let drivers = [
            (&mut running.prover, sheet.prover),
            (&mut running.verifier, sheet.verifier),
        ]
        .map(|(tag, order)| obey(tag, order, TO_DRIVER, self.handled));
        !timers.contains(&false) && !drivers.contains(&false)
    }
}

/// The orders to a timer that runs.
const TO_TIMER: Orders = Orders {
    end: timer::CANCEL,
    others: &[],
};

/// Those to a driver that runs.
const TO_DRIVER: Orders = Orders {
    end: driver::STOP,
    others: &[driver::PASS_ON],
};

#[derive(Clone, Copy)]
struct Orders {
    end: u32,
    others: &'static [u32],
}

/// Carries out an order; false if it has no meaning, or goes to what is off and is
/// not a start. Drivers and timers have the same numbers for none and start.
fn obey(tag: &mut u32, order: u32, running: Orders, started: u32) -> bool {
    let free = [driver::NONE, driver::START].contains(&order);
    let fits = free || *tag != 0 && (order == running.end || running.others.contains(&order));
    if order == driver::START {
        *tag = started;
    } else if order == running.end {
        *tag = 0;
    }
    fits
}

#[cfg(test)]
mod tests {
    use super::{obey, TO_DRIVER, TO_TIMER};
    use crate::orders::driver::{NONE, PASS_ON, START, STOP};

    #[test]
    fn only_what_runs_is_stopped_or_passed_on_to() {
        let mut tag = 0;
        let mut fits = |order| obey(&mut tag, order, TO_DRIVER, 9);
        assert!(fits(NONE) && !fits(STOP) && !fits(PASS_ON));
        assert!(fits(START) && fits(PASS_ON) && fits(STOP));
        assert!(!fits(STOP));
    }

    #[test]
    fn an_order_has_a_meaning() {
        assert!(!obey(&mut 5, PASS_ON + 1, TO_DRIVER, 9));
        assert!(!obey(&mut 5, PASS_ON, TO_TIMER, 9));
    }
}
