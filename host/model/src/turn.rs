//! A handled event, and "Timers": what it does to each of them.

use crate::call::Call;
use crate::edition::Edition;
use crate::record::Record;
use crate::table::Row;
use crate::timers::Timer;

/// A handled event: what it met, the row of the table that took it, and the
/// state it leads to.
pub(crate) struct Turn<'a> {
    pub edition: Edition,
    pub record: &'a Record,
    pub call: &'a Call<'a>,
    pub row: Row,
    pub to: u32,
}

/// What becomes of a timer and its tag.
#[derive(Clone, Copy, Debug, PartialEq, Eq)]
pub(crate) enum Change {
    Start,
    End,
    Keep,
}

impl Turn<'_> {
    pub(crate) fn locks(&self) -> bool {
        self.to == 9
    }

    /// "Each starts on coming into its set of states ... They are cancelled on
    /// leaving the set."
    pub(crate) fn change(&self, timer: Timer) -> Change {
        if timer == Timer::Ra {
            return self.ra_change();
        }
        match (timer.runs_in(self.record.state), timer.runs_in(self.to)) {
            (false, true) => Change::Start,
            (true, true) if self.restarts(timer) => Change::Start,
            (true, false) => Change::End,
            _ => Change::Keep,
        }
    }

    /// "HP and HV also with every start of their driver, ACK with every repeat."
    fn restarts(&self, timer: Timer) -> bool {
        match timer {
            Timer::Hp => self.row.starts_prover(),
            Timer::Hv => self.row.starts_verifier(),
            Timer::Ack => self.row == Row::Repeat,
            _ => false,
        }
    }

    /// "RA starts at event 4, is cancelled when a verifier starts, when 21 is
    /// handled in 7 or 8, and by locking"; mended, by 21 "in every state where it
    /// runs".
    fn ra_change(&self) -> Change {
        let cancels = self.edition == Edition::Mended || [7, 8].contains(&self.record.state);
        let token_ended = self.row == Row::DatTimeout && cancels;
        if self.row == Row::VerifierOk {
            Change::Start
        } else if self.row.starts_verifier() || token_ended || self.locks() {
            Change::End
        } else {
            Change::Keep
        }
    }
}
