//! The three programs that are measured, each with its own record.

use crate::baseline;
use crate::mixes::{Begin, Call};
use compare::translate;
use menhotrac::raw::{self, Actions, Connection};
use model::{numbers, Edition, Record, Sheet};
use std::hint::black_box;

pub trait Engine {
    fn begin(&mut self, begin: &Begin);

    /// One call; gives the answer and a slot of the actions, so that both are computed.
    fn step(&mut self, call: &Call, payload: &[u8], cache: &mut [u8]) -> (u32, u32);

    /// The record as it is now.
    fn connection(&self) -> Connection;
}

/// Record and actions of a program that changes them in place.
#[derive(Default)]
struct InPlace {
    connection: Connection,
    actions: Actions,
}

/// The step of the proved archive, through the flat bindings.
#[derive(Default)]
pub struct Archive(InPlace);

/// The step in ordinary Rust.
#[derive(Default)]
pub struct Baseline(InPlace);

macro_rules! engine_in_place {
    ($engine:ty, $step:path) => {
        impl Engine for $engine {
            fn begin(&mut self, begin: &Begin) {
                self.0.connection = begin.connection;
            }

            #[inline(always)]
            fn step(&mut self, call: &Call, payload: &[u8], cache: &mut [u8]) -> (u32, u32) {
                let InPlace {
                    connection,
                    actions,
                } = black_box(&mut self.0);
                let answer = $step(
                    connection,
                    &call.event,
                    payload,
                    &call.lists,
                    cache,
                    actions,
                );
                (answer, actions.message)
            }

            fn connection(&self) -> Connection {
                self.0.connection
            }
        }
    };
}

engine_in_place!(Archive, raw::step);
engine_in_place!(Baseline, baseline::step);

/// The model, which follows document 01's sentences and is not tuned.
#[derive(Default)]
pub struct Model {
    record: Record,
    sheet: Sheet,
}

impl Engine for Model {
    fn begin(&mut self, begin: &Begin) {
        self.record = begin.record;
    }

    #[inline(always)]
    fn step(&mut self, call: &Call, payload: &[u8], cache: &mut [u8]) -> (u32, u32) {
        let modelled = call.modelled(payload);
        let (answer, record, sheet) = model::step(Edition::Mended, &self.record, &modelled, cache);
        self.record = record;
        self.sheet = sheet;
        (numbers::answer(answer), self.sheet.message)
    }

    fn connection(&self) -> Connection {
        translate::connection(&self.record)
    }
}
