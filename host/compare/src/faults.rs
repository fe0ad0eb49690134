//! The faults of a call, and which of them one call can have at once.

use menhotrac::raw::WRONG_VERDICT;

/// The faults, by the number of their refusal, in the order in which they are
/// looked for.
pub const FAULTS: [u32; 10] = [1, 2, 3, 4, 5, 6, 7, 8, 9, WRONG_VERDICT];

/// Every pair of faults that one call can have. A short cache (5) and a record
/// that is not well formed (7) go with everything. The others ask for codes: 1
/// above 23; 2 for 20; 3 for 18 or 19; 4 for 2, 6, 9, 15, 16 or 18; 6 for 11; 9
/// and the wrong verdict for 11 or 13. So of those 3 and 4 meet (event 18), and 6,
/// 9 and the wrong verdict meet each other (event 11). 8 asks that the event be
/// handled: never so of an unknown code (1) or timer (2); 3 meets it only in a
/// record whose bit is itself above 1, which has the fault 7 as well.
pub const PAIRS: [(u32, u32); 26] = [
    (1, 5),
    (1, 7),
    (2, 5),
    (2, 7),
    (3, 4),
    (3, 5),
    (3, 7),
    (3, 8),
    (4, 5),
    (4, 7),
    (4, 8),
    (5, 6),
    (5, 7),
    (5, 8),
    (5, 9),
    (5, WRONG_VERDICT),
    (6, 7),
    (6, 8),
    (6, 9),
    (6, WRONG_VERDICT),
    (7, 8),
    (7, 9),
    (7, WRONG_VERDICT),
    (8, 9),
    (8, WRONG_VERDICT),
    (9, WRONG_VERDICT),
];

/// Whether a message can have a fault: it names no timer, and its code and its bit
/// are right, which leaves 1 to 3 out.
pub fn of_message(fault: u32) -> bool {
    fault > 3
}
