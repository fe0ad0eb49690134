//! The lists that suites are chosen from: for each mix calls of the form that its name says, each with suites of its own.

use menhotrac::raw::Lists;
use menhotrac::MAX_LIST_LEN;
use model::random::Random;

/// Calls of a mix: few enough for their lists to stay in the second-level cache.
const CALLS: usize = 300;
/// The most suites that a list with repeats has.
const REPEATED: usize = 4;
/// The most entries of a short list.
const SHORT: u32 = 3;
/// The suites that mixed lists draw from: so many that about half of the searches find none.
const MIXED: u32 = 64;

pub struct Mix {
    pub name: &'static str,
    pub calls: Vec<Call>,
}

/// The lists of one call, by the search that goes through them.
pub struct Call {
    verifier: Pair,
    prover: Pair,
}

impl Call {
    pub fn lists(&self) -> Lists<'_> {
        Lists {
            our_verifiers: &self.verifier.verifiers,
            peer_provers: &self.verifier.provers,
            peer_verifiers: &self.prover.verifiers,
            our_provers: &self.prover.provers,
        }
    }
}

struct Pair {
    verifiers: Vec<u32>,
    provers: Vec<u32>,
}

/// Which entries two lists have in common.
#[derive(Clone, Copy)]
enum Common {
    Nothing,
    First,
    Last,
}

fn distinct(random: &mut Random, count: usize) -> Vec<u32> {
    let mut suites = Vec::new();
    while suites.len() < count {
        let suite = random.next_u32();
        if !suites.contains(&suite) {
            suites.push(suite);
        }
    }
    suites
}

/// Lists without repeats, which are not empty.
fn pair(random: &mut Random, verifiers: usize, provers: usize, common: Common) -> Pair {
    let suites = distinct(random, verifiers + provers);
    let (verifiers, provers) = suites.split_at(verifiers);
    let mut provers = provers.to_vec();
    let last = provers.len() - 1;
    match common {
        Common::Nothing => {}
        Common::First => provers[0] = verifiers[0],
        Common::Last => provers[last] = verifiers[verifiers.len() - 1],
    }
    Pair {
        verifiers: verifiers.to_vec(),
        provers,
    }
}

fn long_pair(random: &mut Random, common: Common) -> Pair {
    pair(random, MAX_LIST_LEN, MAX_LIST_LEN, common)
}

/// Lists of given lengths that have nothing, the first or the last entry in common.
fn any_pair(random: &mut Random, verifiers: usize, provers: usize) -> Pair {
    let common = random.pick(&[Common::Nothing, Common::First, Common::Last]);
    pair(random, verifiers, provers, common)
}

fn short_pair(random: &mut Random) -> Pair {
    let [verifiers, provers] = [(); 2].map(|()| 1 + random.below(SHORT) as usize);
    any_pair(random, verifiers, provers)
}

fn mixed_list(random: &mut Random) -> Vec<u32> {
    let count = random.below(MAX_LIST_LEN as u32 + 1);
    (0..count).map(|_| random.below(MIXED)).collect()
}

fn mixed_pair(random: &mut Random) -> Pair {
    Pair {
        verifiers: mixed_list(random),
        provers: mixed_list(random),
    }
}

/// A list of the peer's with repeats, which has at each place the suite with the number that `number` gives, and a list
/// of ours with sixteen other suites.
fn repeated(random: &mut Random, number: fn(usize) -> usize) -> (Vec<u32>, Vec<u32>) {
    let suites = distinct(random, REPEATED + MAX_LIST_LEN);
    let (few, ours) = suites.split_at(REPEATED);
    let peers = (0..MAX_LIST_LEN).map(|place| few[number(place)]);
    (peers.collect(), ours.to_vec())
}

fn repeated_call(random: &mut Random, number: fn(usize) -> usize) -> Call {
    let (peer_provers, our_verifiers) = repeated(random, number);
    let (peer_verifiers, our_provers) = repeated(random, number);
    Call {
        verifier: Pair {
            verifiers: our_verifiers,
            provers: peer_provers,
        },
        prover: Pair {
            verifiers: peer_verifiers,
            provers: our_provers,
        },
    }
}

fn mix(name: &'static str, mut call: impl FnMut(&mut Random) -> Call) -> Mix {
    let mut random = Random::new(1);
    let calls = (0..CALLS).map(|_| call(&mut random));
    Mix {
        name,
        calls: calls.collect(),
    }
}

/// A mix whose calls have two pairs that are drawn alike.
fn mix_of_pairs(name: &'static str, mut pair: impl FnMut(&mut Random) -> Pair) -> Mix {
    mix(name, |random| Call {
        verifier: pair(random),
        prover: pair(random),
    })
}

fn mix_of_repeats(name: &'static str, number: fn(usize) -> usize) -> Mix {
    mix(name, |random| repeated_call(random, number))
}

pub fn all() -> Vec<Mix> {
    vec![
        mix_of_repeats("suites-repeats", |_| 0),
        mix_of_pairs("suites-none", |random| long_pair(random, Common::Nothing)),
        mix_of_pairs("suites-first", |random| long_pair(random, Common::First)),
        mix_of_pairs("suites-last", |random| long_pair(random, Common::Last)),
        mix_of_pairs("suites-short", short_pair),
        mix_of_pairs("suites-one", |random| any_pair(random, 1, 1)),
        mix_of_pairs("suites-two", |random| any_pair(random, 2, 2)),
        mix_of_pairs("suites-three", |random| any_pair(random, 3, 3)),
        mix_of_pairs("suites-five", |random| any_pair(random, 5, 5)),
        mix_of_pairs("suites-seven", |random| any_pair(random, 7, 7)),
        mix_of_repeats("suites-spread", |place| place % REPEATED),
        mix_of_repeats("suites-runs", |place| place * REPEATED / MAX_LIST_LEN),
        mix_of_pairs("suites-mixed", mixed_pair),
    ]
}

#[cfg(test)]
mod tests {
    use super::{all, Call, Mix, Pair};
    use crate::suites::check;
    use std::collections::BTreeSet;

    /// How many neighbours are the same suite.
    fn adjacent(list: &[u32]) -> usize {
        list.windows(2).filter(|two| two[0] == two[1]).count()
    }

    /// Of a list: its length, how many suites differ, and how many neighbours are the same.
    fn form(list: &[u32]) -> (usize, usize, usize) {
        let suites: BTreeSet<&u32> = list.iter().collect();
        (list.len(), suites.len(), adjacent(list))
    }

    /// The places of equal entries, among the verifiers and among the provers.
    fn common(pair: &Pair) -> Vec<(usize, usize)> {
        let places = |suite| (0..pair.provers.len()).filter(move |at| pair.provers[*at] == suite);
        let entries = pair.verifiers.iter().enumerate();
        entries
            .flat_map(|(place, suite)| places(*suite).map(move |at| (place, at)))
            .collect()
    }

    fn pairs(mix: &Mix) -> impl Iterator<Item = &Pair> {
        mix.calls
            .iter()
            .flat_map(|call| [&call.verifier, &call.prover])
    }

    fn of(name: &str) -> Mix {
        all().into_iter().find(|mix| mix.name == name).unwrap()
    }

    fn assert_repeats(name: &str, suites: usize, neighbours: usize) {
        let peer_form = (16, suites, neighbours);
        for Call { verifier, prover } in &of(name).calls {
            for peers in [&verifier.provers, &prover.verifiers] {
                assert_eq!(form(peers), peer_form, "{name}");
            }
            for ours in [&verifier.verifiers, &prover.provers] {
                assert_eq!(form(ours), (16, 16, 0), "{name}");
            }
            assert!(common(verifier).is_empty(), "{name}");
            assert!(common(prover).is_empty(), "{name}");
        }
    }

    fn assert_long(name: &str, places: &[(usize, usize)]) {
        for pair in pairs(&of(name)) {
            assert_eq!(form(&pair.verifiers), (16, 16, 0), "{name}");
            assert_eq!(form(&pair.provers), (16, 16, 0), "{name}");
            assert_eq!(common(pair), places, "{name}");
        }
    }

    #[test]
    fn lists_of_the_peer_repeat() {
        assert_repeats("suites-repeats", 1, 15);
        assert_repeats("suites-spread", 4, 0);
        assert_repeats("suites-runs", 4, 12);
    }

    #[test]
    fn long_lists_have_in_common_what_the_name_says() {
        assert_long("suites-none", &[]);
        assert_long("suites-first", &[(0, 0)]);
        assert_long("suites-last", &[(15, 15)]);
    }

    /// For each of the nine pairs of lengths nothing, the first or the last; with one entry each, first is last.
    #[test]
    fn short_lists_are_of_all_forms() {
        let form = |pair: &Pair| (pair.verifiers.len(), pair.provers.len(), common(pair));
        let forms: BTreeSet<_> = pairs(&of("suites-short")).map(form).collect();
        let mut wanted = BTreeSet::new();
        for (verifiers, provers) in (1..=3).flat_map(|len| (1..=3).map(move |other| (len, other))) {
            wanted.insert((verifiers, provers, vec![]));
            wanted.insert((verifiers, provers, vec![(0, 0)]));
            wanted.insert((verifiers, provers, vec![(verifiers - 1, provers - 1)]));
        }
        assert_eq!(forms, wanted);
    }

    #[test]
    fn lists_of_one_length_have_all_outcomes() {
        for (name, len) in [
            ("one", 1),
            ("two", 2),
            ("three", 3),
            ("five", 5),
            ("seven", 7),
        ] {
            let mix = of(&format!("suites-{name}"));
            let form = |pair: &Pair| (pair.verifiers.len(), pair.provers.len(), common(pair));
            let forms: BTreeSet<_> = pairs(&mix).map(form).collect();
            let places = [vec![], vec![(0, 0)], vec![(len - 1, len - 1)]];
            let wanted: BTreeSet<_> = places.map(|places| (len, len, places)).into();
            assert_eq!(forms, wanted, "{name}");
        }
    }

    #[test]
    fn mixed_lists_have_all_lengths_and_outcomes() {
        let mix = of("suites-mixed");
        let lists = pairs(&mix).flat_map(|pair| [&pair.verifiers, &pair.provers]);
        let lengths: BTreeSet<usize> = lists.map(Vec::len).collect();
        assert_eq!(lengths, (0..=16).collect());
        let finds = |pair: &Pair| !common(pair).is_empty();
        let outcome = |call: &Call| (finds(&call.verifier), finds(&call.prover));
        let outcomes: BTreeSet<_> = mix.calls.iter().map(outcome).collect();
        assert_eq!(outcomes.len(), 4);
    }

    #[test]
    fn programs_choose_the_same() {
        for mix in all() {
            check(&mix);
        }
    }
}
