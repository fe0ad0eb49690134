//! What was seen, held against what has to be seen.

use menhotrac::raw::{HANDLED, IGNORED};
use std::collections::{BTreeMap, BTreeSet};
use std::fmt::Debug;

/// What a comparison has shown: of one thread, or of all.
pub trait Coverage: Default + Send + 'static {
    /// Adds what another thread has seen.
    fn add(&mut self, other: Self);

    /// The summary, and whether all was seen that has to be, and nothing else.
    fn summary(&self) -> (String, bool);
}

/// Lines of a summary as one, good if all are.
pub fn summed(parts: &[(String, bool)]) -> (String, bool) {
    let lines = parts.iter().map(|(line, _)| line.as_str()).collect();
    (lines, parts.iter().all(|&(_, good)| good))
}

/// Says nothing of a set that is as large as it should be.
pub fn size(name: &str, found: usize, wanted: usize) -> (String, bool) {
    if found == wanted {
        return (String::new(), true);
    }
    (format!("{name} {found}, NOT {wanted}\n"), false)
}

/// A line of the summary, and whether what was seen is just what was wanted.
pub fn seen<T: Ord + Debug>(name: &str, seen: &BTreeSet<T>, wanted: BTreeSet<T>) -> (String, bool) {
    let missing: Vec<_> = wanted.difference(seen).collect();
    let surplus: Vec<_> = seen.difference(&wanted).collect();
    let all = wanted.len();
    let mut line = format!("{name} seen {} of {all}\n", all - missing.len());
    if !missing.is_empty() {
        line += &format!("NOT SEEN: {missing:?}\n");
    }
    if !surplus.is_empty() {
        line += &format!("SEEN, BUT CANNOT BE: {surplus:?}\n");
    }
    (line, missing.is_empty() && surplus.is_empty())
}

/// How often each answer was given, one to a line.
pub fn tally(answers: &BTreeMap<u32, u64>) -> String {
    let lines = answers.iter().map(|(&answer, count)| match answer {
        HANDLED => format!("handled {count}\n"),
        IGNORED => format!("ignored {count}\n"),
        number => format!("refused {number}: {count}\n"),
    });
    lines.collect()
}

/// Every pair of the faults that one call has.
pub fn pairs(faults: &[u32]) -> impl Iterator<Item = (u32, u32)> + '_ {
    faults.iter().enumerate().flat_map(|(index, &first)| {
        let later = faults[index + 1..].iter();
        later.map(move |&second| (first, second))
    })
}
