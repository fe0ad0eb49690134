//! Random messages as bytes, well formed and not.

mod cuts;
mod damage;
pub mod inputs;
mod pen;
pub mod written;
