//! The typed calls against document 01.

mod agreement;
mod boot_run;
mod bytes;
mod locked;
mod numbers;
mod parts;
mod receive;
mod received;
mod refusals;
mod suites;
mod support;
mod tags;
mod tokens;
