//! Random runs from fresh.

mod agreement;
mod calls;
mod editions;
