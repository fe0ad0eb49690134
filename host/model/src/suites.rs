//! "Tokens and suites", the suites.

/// Most entries of a suite list.
pub const MOST_SUITES: usize = 16;

/// The four suite lists of a hello.
#[derive(Clone, Copy, Debug, Default, PartialEq, Eq)]
pub struct Lists<'a> {
    pub our_verifiers: &'a [u32],
    pub peer_provers: &'a [u32],
    pub peer_verifiers: &'a [u32],
    pub our_provers: &'a [u32],
}

/// The suites that were found.
#[derive(Clone, Copy, Debug, PartialEq, Eq)]
pub struct Suites {
    pub verifier: Option<u32>,
    pub prover: Option<u32>,
}

/// The first entry of `outer` that stands anywhere in `inner`.
fn first_common(outer: &[u32], inner: &[u32]) -> Option<u32> {
    outer.iter().copied().find(|entry| inner.contains(entry))
}

impl Lists<'_> {
    /// Whether a list is too long, the fault of refusal 6.
    pub(crate) fn too_long(&self) -> bool {
        let lists = [
            self.our_verifiers,
            self.peer_provers,
            self.peer_verifiers,
            self.our_provers,
        ];
        lists.iter().any(|list| list.len() > MOST_SUITES)
    }

    /// Our verifiers meet the peer's provers, the peer's verifiers our provers.
    pub(crate) fn found(&self) -> Suites {
        Suites {
            verifier: first_common(self.our_verifiers, self.peer_provers),
            prover: first_common(self.peer_verifiers, self.our_provers),
        }
    }
}

/// The choice "asked alone": the suites found, or refusal 6.
pub fn choose(lists: &Lists) -> Result<Suites, u32> {
    if lists.too_long() {
        return Err(6);
    }
    Ok(lists.found())
}
