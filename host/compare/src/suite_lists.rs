//! Random suite lists.

use model::random::Random;
use model::{Lists, MOST_SUITES};
use std::fmt;

/// Room for a list that is two entries too long.
const ROOM: usize = MOST_SUITES + 2;

#[derive(Clone, Copy)]
struct SuiteList {
    entries: [u32; ROOM],
    len: usize,
}

/// The four lists of a hello, in the order of the fields of [`Lists`].
#[derive(Clone, Copy)]
pub struct SuiteLists([SuiteList; 4]);

impl SuiteLists {
    /// Four lists over a few suites, so that most hellos find both; the more
    /// suites there are, the later a common one stands.
    pub fn draw(random: &mut Random) -> SuiteLists {
        let suites = match random.below(50) {
            0 => u32::MAX,
            1..=3 => 40,
            4..=9 => 8,
            10..=34 => 3,
            _ => 1,
        };
        let first = random.pick(&[0, 0, 5, u32::MAX - suites]);
        SuiteLists([(); 4].map(|()| SuiteList::draw(random, first, suites)))
    }

    /// Lists for an event that does not carry them: cheap, but maybe too long.
    pub fn unread(random: &mut Random) -> SuiteLists {
        let list = SuiteList {
            entries: [3; ROOM],
            len: random.below(ROOM as u32 + 1) as usize,
        };
        SuiteLists([list; 4])
    }

    pub fn lists(&self) -> Lists<'_> {
        let [our_verifiers, peer_provers, peer_verifiers, our_provers] =
            self.0.each_ref().map(SuiteList::entries);
        Lists {
            our_verifiers,
            peer_provers,
            peer_verifiers,
            our_provers,
        }
    }
}

impl SuiteList {
    fn draw(random: &mut Random, first: u32, suites: u32) -> SuiteList {
        let len = match random.below(100) {
            0 => 17,
            1 => 18,
            2..=3 => 0,
            4..=14 => 16,
            15..=49 => random.below(17),
            _ => 1 + random.below(6),
        } as usize;
        let mut entries = [0; ROOM];
        for entry in &mut entries[..len] {
            *entry = first.wrapping_add(random.below(suites));
        }
        SuiteList { entries, len }
    }

    fn entries(&self) -> &[u32] {
        &self.entries[..self.len]
    }
}

/// On one line, however the rest is printed.
impl fmt::Debug for SuiteLists {
    fn fmt(&self, formatter: &mut fmt::Formatter) -> fmt::Result {
        write!(formatter, "{:?}", self.lists())
    }
}
