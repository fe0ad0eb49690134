//! The two editions differ in RA alone.

use crate::calls::{random_call, CALLS};
use model::random::Random;
use model::{step, timer, Answer, Edition, Record, Sheet};
use std::collections::BTreeSet;

/// State, event and next state.
type Place = (u32, u32, u32);

/// Where RA is cancelled in the mended edition alone.
const MENDED_CANCELS: Place = (3, 21, 5);

/// Where it is in the printed one alone, since it ran on in 5 and 6.
const PRINTED_CANCELS: [Place; 13] = [
    (5, 1, 9),
    (5, 8, 9),
    (5, 10, 9),
    (5, 12, 9),
    (5, 13, 2),
    (5, 13, 9),
    (5, 20, 9),
    (6, 1, 9),
    (6, 10, 9),
    (6, 12, 9),
    (6, 13, 4),
    (6, 13, 9),
    (6, 20, 9),
];

type Result = (Answer, Record, Sheet);

fn without_ra((answer, mut record, mut sheet): Result) -> Result {
    (record.ra, sheet.ra) = (0, 0);
    (answer, record, sheet)
}

/// Both get the same calls, aimed at the printed edition's record: its RA can be
/// live where the mended one's is off.
#[test]
fn same_answers_records_and_sheets_but_for_ra() {
    let mut random = Random::new(2);
    let mut cache = vec![0; 4_096];
    let (mut orders, mut tags) = (BTreeSet::new(), BTreeSet::new());
    let (mut printed, mut mended) = (Record::fresh(), Record::fresh());
    for _ in 0..CALLS {
        let bytes = random.next_u64().to_le_bytes();
        let call = random_call(&mut random, &printed, &bytes);
        let of_printed = step(Edition::Printed, &printed, &call, &mut cache);
        let of_mended = step(Edition::Mended, &mended, &call, &mut cache);
        assert_eq!(without_ra(of_printed), without_ra(of_mended));
        let place = (printed.state, call.event.code, of_printed.1.state);
        if of_printed.2.ra != of_mended.2.ra {
            orders.insert((place, of_printed.2.ra, of_mended.2.ra));
        }
        (printed, mended) = (of_printed.1, of_mended.1);
        assert_eq!(printed.well_formed(Edition::Mended), printed == mended);
        if printed != mended {
            tags.insert((printed.state, mended.ra));
        }
        if printed.state == 9 && random.chance(25) {
            (printed, mended) = (Record::fresh(), Record::fresh());
        }
    }
    let mut wanted = BTreeSet::from(PRINTED_CANCELS.map(|at| (at, timer::CANCEL, timer::NONE)));
    wanted.insert((MENDED_CANCELS, timer::NONE, timer::CANCEL));
    assert_eq!(orders, wanted);
    assert_eq!(tags, [(5, 0), (6, 0)].into());
}
