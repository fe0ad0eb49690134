//! The program that prints what the model says of rows.

mod bytes;
mod form;
mod lines;
mod paper;
mod program;
