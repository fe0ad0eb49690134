//! The choice of suites by the three programs that are measured. Two of them are Rust of this file; they are reached
//! just as the archive is: a function over the lists calls a flat one, and neither is inlined.

use menhotrac::raw::{self, Choice, Lists};
use menhotrac::{Refusal, MAX_LIST_LEN};

const NOT_REFUSED: u32 = 0;

pub struct Program {
    pub name: &'static str,
    pub choose: fn(&Lists) -> Choice,
}

pub const PROGRAMS: [Program; 3] = [
    Program {
        name: "archive",
        choose: raw::choose_suites,
    },
    Program {
        name: "former",
        choose: choose_suites::<Former>,
    },
    Program {
        name: "rust",
        choose: choose_suites::<Plain>,
    },
];

/// What the two programs in Rust differ in.
trait Search {
    /// The first entry of `verifiers` found anywhere in `provers`.
    fn first_common(verifiers: &[u32], provers: &[u32]) -> Option<u32>;
}

/// The search that the archive had before request #103. It is kept for this benchmark alone, so that the archive can be
/// measured beside it in one run.
///
/// Indices are counted by hand, and what was found is kept in one number, because the compiler then makes the
/// loops that it made for the archive.
struct Former;

impl Former {
    /// Nothing was found. A suite that was found stands in the upper half, above a lower half of 0.
    const NOTHING: u64 = 1;
}

impl Search for Former {
    #[inline(always)]
    fn first_common(verifiers: &[u32], provers: &[u32]) -> Option<u32> {
        let mut common = Former::NOTHING;
        let mut i = 0;
        'search: while i < verifiers.len() {
            let suite = verifiers[i];
            let mut j = 0;
            while j < provers.len() {
                if suite == provers[j] {
                    common = u64::from(suite) << 32;
                    break 'search;
                }
                j += 1;
            }
            i += 1;
        }
        (common & Former::NOTHING == 0).then_some((common >> 32) as u32)
    }
}

/// The search as it is plainly written in Rust.
struct Plain;

impl Search for Plain {
    #[inline(always)]
    fn first_common(verifiers: &[u32], provers: &[u32]) -> Option<u32> {
        verifiers
            .iter()
            .copied()
            .find(|suite| provers.contains(suite))
    }
}

/// The counterpart of [`raw::choose_suites`].
#[inline(never)]
fn choose_suites<S: Search>(lists: &Lists) -> Choice {
    let mut chosen = [0; 4];
    let refusal = flat::<S>(
        lists.our_verifiers,
        lists.peer_provers,
        lists.peer_verifiers,
        lists.our_provers,
        &mut chosen,
    );
    Choice::new(refusal, chosen)
}

/// The counterpart of the archive's `menhotrac_choose_suites`. `count` finds it by its name, which is therefore not the
/// beginning of another function's.
#[inline(never)]
fn flat<S: Search>(
    our_verifiers: &[u32],
    peer_provers: &[u32],
    peer_verifiers: &[u32],
    our_provers: &[u32],
    chosen: &mut [u32; 4],
) -> u32 {
    let too_long = (our_verifiers.len() > MAX_LIST_LEN)
        | (peer_provers.len() > MAX_LIST_LEN)
        | (peer_verifiers.len() > MAX_LIST_LEN)
        | (our_provers.len() > MAX_LIST_LEN);
    if too_long {
        *chosen = [0; 4];
        return Refusal::ListTooLong.number();
    }
    let verifier = S::first_common(our_verifiers, peer_provers);
    let prover = S::first_common(peer_verifiers, our_provers);
    *chosen = [
        u32::from(verifier.is_some()),
        verifier.unwrap_or(0),
        u32::from(prover.is_some()),
        prover.unwrap_or(0),
    ];
    NOT_REFUSED
}

#[cfg(test)]
mod tests {
    use super::PROGRAMS;
    use menhotrac::raw::{Choice, Lists};

    const FITTING: Lists = Lists {
        our_verifiers: &[7, 3],
        peer_provers: &[3, 7],
        peer_verifiers: &[5, 0],
        our_provers: &[0],
    };
    const LONG: &[u32] = &[3; 17];

    #[test]
    fn programs_choose_the_first_common_suites() {
        let wanted = Choice {
            refusal: 0,
            verifier_found: 1,
            verifier: 7,
            prover_found: 1,
            prover: 0,
        };
        for program in PROGRAMS {
            assert_eq!((program.choose)(&FITTING), wanted, "{}", program.name);
        }
    }

    #[test]
    fn programs_refuse_each_list_that_is_too_long() {
        let wanted = Choice {
            refusal: 6,
            ..Choice::default()
        };
        let mut calls = [FITTING; 4];
        calls[0].our_verifiers = LONG;
        calls[1].peer_provers = LONG;
        calls[2].peer_verifiers = LONG;
        calls[3].our_provers = LONG;
        for program in PROGRAMS {
            for lists in &calls {
                assert_eq!((program.choose)(lists), wanted, "{}", program.name);
            }
        }
    }
}
