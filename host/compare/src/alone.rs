//! The fresh record, the token's time and the choice of suites, asked alone.

use crate::difference::{Checked, Difference};
use crate::session::Session;
use compare::suite_lists::SuiteLists;
use compare::{tokens, translate};
use menhotrac::raw;
use model::random::Random;
use model::{numbers, Record};
use std::fmt::Debug;

pub fn call(session: &mut Session) -> Checked<()> {
    session.coverage.note_asked_alone();
    match session.random.below(100) {
        0 => ask_fresh(),
        1..=49 => ask_seconds(&mut session.random),
        _ => ask_suites(&mut session.random),
    }
}

fn same<T: PartialEq + Debug>(
    what: &'static str,
    given: &dyn Debug,
    model: T,
    product: T,
) -> Checked<()> {
    if model == product {
        return Ok(());
    }
    let sides: [(_, &dyn Debug); 2] = [("model", &model), ("archive", &product)];
    Err(Difference::new(what, given, sides))
}

fn ask_fresh() -> Checked<()> {
    let model = translate::connection(&Record::fresh());
    same("the fresh records differ", &(), model, raw::fresh())
}

fn ask_seconds(random: &mut Random) -> Checked<()> {
    let (expiry, now) = tokens::any_times(random);
    let margin = tokens::margin(random);
    let model = numbers::seconds(expiry, now, margin);
    let left = raw::seconds_left(expiry, now, margin);
    let product = (left.refusal, left.seconds);
    let given = (("expiry", expiry), ("now", now), ("margin", margin));
    same("the seconds left differ", &given, model, product)
}

fn ask_suites(random: &mut Random) -> Checked<()> {
    let suites = SuiteLists::draw(random);
    let (refusal, chosen) = numbers::choice(&suites.lists());
    let model = raw::Choice::new(refusal, chosen);
    let product = raw::choose_suites(&translate::lists(&suites.lists()));
    same("the suites differ", &suites, model, product)
}
