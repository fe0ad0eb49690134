//! Random records: well formed, with one clause spoilt, and wholly random.

use crate::difference::{Checked, Difference};
use crate::spoilt::{self, Spoil};
use crate::well_formed::{self, Tag};
use model::random::Random;
use model::{Edition, Record};

/// Drawn more often than the others, since it is what request #102 makes a fault in
/// 5 and 6.
const RA_ON: Spoil = Spoil::TagOn(Tag::Ra);

/// How a record was made.
#[derive(Clone, Copy, Debug, PartialEq, Eq)]
pub enum Making {
    WellFormed,
    Spoilt(Spoil),
    Random,
}

pub struct Records {
    spoils: Vec<Spoil>,
}

impl Default for Records {
    fn default() -> Records {
        Records {
            spoils: spoilt::all(),
        }
    }
}

impl Records {
    /// A record, well formed in any state more often than not.
    pub fn draw(&self, edition: Edition, random: &mut Random) -> Checked<(Making, Record)> {
        let (making, record) = match random.below(10) {
            0..=5 => {
                let state = random.below(10);
                let record = well_formed::record(random, state, u32::MAX);
                (Making::WellFormed, record)
            }
            6..=8 => {
                let any = random.pick(&self.spoils);
                let spoil = if random.chance(20) { RA_ON } else { any };
                (Making::Spoilt(spoil), spoil.record(random))
            }
            _ => (Making::Random, random_record(random)),
        };
        check_making(edition, making, &record)?;
        Ok((making, record))
    }
}

/// The model has to call a record well formed just if it was made so; as printed,
/// RA may be on in 5 and 6.
fn check_making(edition: Edition, making: Making, record: &Record) -> Checked<()> {
    let well_formed = record.well_formed(edition);
    let ra_may_run = edition == Edition::Printed && [5, 6].contains(&record.state);
    let agrees = match making {
        Making::WellFormed => well_formed,
        Making::Spoilt(RA_ON) if ra_may_run => well_formed,
        Making::Spoilt(_) => !well_formed,
        Making::Random => true,
    };
    if agrees {
        return Ok(());
    }
    let what = "the model misjudges whether a record is well formed";
    Err(Difference::new(
        what,
        record,
        [("model", &well_formed), ("made", &making)],
    ))
}

/// Numbers of any size in every field, small ones often.
fn random_record(random: &mut Random) -> Record {
    let mut any = || match random.below(4) {
        0 => 0,
        1 => random.below(3),
        2 => random.below(11),
        _ => random.next_u32(),
    };
    Record {
        state: any(),
        ack_flag: any(),
        next_send_bit: any(),
        expected_bit: any(),
        cached_len: any(),
        number: any(),
        h: any(),
        prover: any(),
        verifier: any(),
        dat: any(),
        ra: any(),
        ack: any(),
    }
}

#[cfg(test)]
mod tests {
    use super::{Making, Records, RA_ON};
    use model::random::Random;
    use model::Edition;

    #[test]
    fn ra_is_often_on_in_5_and_6() {
        let (records, mut random) = (Records::default(), Random::new(1));
        let mut drawn = [0; 10];
        for _ in 0..10_000 {
            match records.draw(Edition::Mended, &mut random) {
                Ok((Making::Spoilt(RA_ON), record)) => drawn[record.state as usize] += 1,
                Ok(_) => {}
                Err(difference) => panic!("{difference}"),
            }
        }
        assert!(drawn[5] > 50 && drawn[6] > 50, "{drawn:?}");
    }
}
