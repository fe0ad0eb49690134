//! One call given to the model and to the archive, and everything compared.

use crate::arguments::Arguments;
use crate::difference::{Checked, Difference};
use crate::translate;
use compare::caches::Caches;
use compare::outcome::{part, Outcome, RUBBISH};
use menhotrac::raw::{self, Actions, HANDLED, IGNORED};
use model::{code, live, numbers, Record, Sheet};

/// The two sides.
pub struct Sides {
    caches: Caches,
}

impl Sides {
    /// Caches that begin with the first of these bytes.
    pub fn new(bytes: &[u8]) -> Sides {
        Sides {
            caches: Caches::new(bytes),
        }
    }

    /// The archive's cache, as long as the call's.
    pub fn cache(&self, arguments: &Arguments) -> &[u8] {
        &self.caches.product[..arguments.cache_len]
    }

    /// Makes the call on both sides. The archive's outcome, and its record and
    /// sheet in the model's terms, come back if nothing differs.
    pub fn try_call(
        &mut self,
        record: &Record,
        arguments: &Arguments,
    ) -> Checked<(Outcome, Record, Sheet)> {
        let (after, sheet, model) = self.ask_model(record, arguments);
        let product = self.ask_product(record, arguments);
        self.write_wanted(arguments, model.answer);
        let before = translate::connection(record);
        let untouched = product.connection == before && product.actions == Actions::default();
        let what = if product != model {
            "the outcomes differ"
        } else if product.answer != HANDLED && !untouched {
            "a call that was not handled changed the record or gave actions"
        } else if product.answer == IGNORED && live(record, &arguments.call().event) {
            "a live event was ignored"
        } else if !self.caches.agree() {
            "a cache does not hold what it should"
        } else if !self.parts_agree(arguments, &product.actions, &sheet) {
            "the payload part is not within its slice, or differs"
        } else {
            return Ok((product, after, sheet));
        };
        Err(self.difference(what, record, arguments, &model, &product))
    }

    /// The model's record after the call, its sheet and its outcome.
    fn ask_model(&mut self, record: &Record, arguments: &Arguments) -> (Record, Sheet, Outcome) {
        let (call, verdict) = (arguments.call(), arguments.event.verdict);
        let cache = &mut self.caches.model[..arguments.cache_len];
        let (answer, after, sheet) =
            numbers::step(arguments.edition, record, &call, verdict, cache);
        let outcome = Outcome {
            answer,
            connection: translate::connection(&after),
            actions: translate::actions(&sheet),
        };
        (after, sheet, outcome)
    }

    /// The slots hold rubbish before, to see that each is written.
    fn ask_product(&mut self, record: &Record, arguments: &Arguments) -> Outcome {
        let mut connection = translate::connection(record);
        let mut actions = RUBBISH;
        let answer = raw::step(
            &mut connection,
            &arguments.event,
            arguments.payload,
            &translate::lists(&arguments.suites.lists()),
            &mut self.caches.product[..arguments.cache_len],
            &mut actions,
        );
        Outcome {
            answer,
            connection,
            actions,
        }
    }

    /// "Event 2 alone writes the cache."
    fn write_wanted(&mut self, arguments: &Arguments, answer: u32) {
        if answer == HANDLED && arguments.event.code == code::UPPER_SEND_DATA {
            self.caches.wanted[..arguments.payload.len()].copy_from_slice(arguments.payload);
        }
    }

    fn parts_agree(&self, arguments: &Arguments, actions: &Actions, sheet: &Sheet) -> bool {
        let model_cache = &self.caches.model[..arguments.cache_len];
        let model_part = model::part(sheet, arguments.payload, model_cache);
        part(actions, arguments.payload, self.cache(arguments)) == Some(model_part)
    }

    fn difference(
        &self,
        what: &'static str,
        record: &Record,
        arguments: &Arguments,
        model: &Outcome,
        product: &Outcome,
    ) -> Box<Difference> {
        let [model_wrong, product_wrong] = self.caches.wrong_at();
        let model = (model, "cache wrong at", model_wrong);
        let product = (product, "cache wrong at", product_wrong);
        let given = (record, arguments);
        Difference::new(what, &given, [("model", &model), ("archive", &product)])
    }
}
