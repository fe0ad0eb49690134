//! Document 01 read into plain Rust, with the margin of request #104.
//!
//! Each file follows one section of the paper, sentence by sentence, and
//! nothing is tuned. The library is proved from definitions of its own; this
//! crate shares no line with it, so that a definition misread there shows up as
//! a difference here. [`Edition`] says whether request #102's mending is followed.
//!
//! Records and events hold plain numbers, so that malformed ones can be given.
//!
//! [`wire`] reads the peer's messages from bytes. It shares no line with the
//! library either, but is written to be quick, as the benchmark's other side.
//! [`arrival`] makes calls of what was read.
//!
//! [`numbers`] says all of this in the numbers of the interface for C. The program
//! `model-rows` prints them for the rows of `crates/cases/stdin`.

#![forbid(unsafe_code)]

pub mod arrival;
mod call;
mod edition;
mod ledger;
mod notes;
pub mod numbers;
mod orders;
pub mod random;
mod record;
mod refusal;
mod step;
mod suites;
mod table;
mod timers;
mod token;
mod turn;
pub mod wire;

pub use call::{carries_token, code, Call, Event};
pub use edition::Edition;
pub use ledger::{Ledger, Running};
pub use notes::{Notes, Predicted};
pub use orders::{driver, message, part, slice, timer, Sheet};
pub use record::{Record, MOST_BYTES};
pub use refusal::{fault, refusal};
pub use step::{step, Answer};
pub use suites::{choose, Lists, Suites, MOST_SUITES};
pub use table::{live, transitions};
pub use token::{seconds_left, MOST_MARGIN};
