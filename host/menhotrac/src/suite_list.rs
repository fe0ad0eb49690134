//! The suites that a HELLO names.

use core::fmt;
use core::ops::Deref;

use crate::raw;

/// A suite list of at most [`MAX_LIST_LEN`](crate::MAX_LIST_LEN) entries. It is used as a slice.
#[derive(Clone, Copy)]
pub struct SuiteList {
    entries: raw::SuiteEntries,
    len: usize,
}

impl SuiteList {
    /// The first `len` of the entries, or all if there are fewer.
    #[inline]
    pub(crate) const fn new(entries: raw::SuiteEntries, len: usize) -> Self {
        Self { entries, len }
    }
}

impl Deref for SuiteList {
    type Target = [u32];

    #[inline]
    fn deref(&self) -> &[u32] {
        self.entries.get(..self.len).unwrap_or(&self.entries)
    }
}

impl PartialEq for SuiteList {
    fn eq(&self, other: &Self) -> bool {
        **self == **other
    }
}

impl Eq for SuiteList {}

impl fmt::Debug for SuiteList {
    fn fmt(&self, formatter: &mut fmt::Formatter<'_>) -> fmt::Result {
        (**self).fmt(formatter)
    }
}
