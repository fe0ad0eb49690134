//! What the comparisons share with each other and with the benchmark.

#![forbid(unsafe_code)]

pub mod caches;
pub mod difference;
pub mod faults;
pub mod options;
pub mod outcome;
pub mod program;
pub mod reading;
pub mod records;
pub mod seen;
pub mod spoilt;
pub mod suite_lists;
pub mod threads;
pub mod tokens;
pub mod translate;
pub mod well_formed;
pub mod wire;
