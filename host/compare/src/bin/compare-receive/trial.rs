//! A message given to both sides, and everything compared.

use crate::arrival::Arrival;
use compare::caches::Caches;
use compare::difference::{Checked, Difference};
use compare::outcome::{part, Outcome, RUBBISH};
use compare::reading::Reading;
use compare::translate;
use menhotrac::raw::{self, Actions, HANDLED};
use model::wire::{Fault, Message};
use model::{numbers, Call, Record, Sheet};

/// What the plain reader made of the bytes.
pub type Read<'a> = Result<Message<'a>, Fault>;

/// What one side made of a message: the outcome, and where the part lies.
#[derive(Clone, Copy, Debug, PartialEq, Eq)]
pub struct Receipt {
    pub outcome: Outcome,
    pub place: usize,
}

/// The two sides.
pub struct Sides {
    caches: Caches,
}

impl Sides {
    /// Caches that begin with the first of these bytes.
    pub fn new(bytes: &[u8]) -> Sides {
        Sides {
            caches: Caches::new(bytes),
        }
    }

    /// Gives the message to both sides. What the archive made of it comes back if
    /// nothing differs.
    pub fn receive(&mut self, arrival: &Arrival, read: &Read) -> Checked<Receipt> {
        let (sheet, model) = self.ask_model(arrival, read);
        let product = self.ask_product(arrival);
        let before = translate::connection(&arrival.record);
        let Outcome {
            answer,
            connection,
            actions,
        } = product.outcome;
        let untouched = connection == before && actions == Actions::default();
        let what = if product != model {
            "the outcomes differ"
        } else if answer != HANDLED && !untouched {
            "a message that was not handled changed the record or gave actions"
        } else if !self.caches.agree() {
            "a cache was written"
        } else if !self.parts_agree(arrival, read, &product, &sheet) {
            "the payload part is not within its slice, or differs"
        } else {
            return Ok(product);
        };
        let [model_wrong, product_wrong] = self.caches.wrong_at();
        let given = (arrival, "the plain reader's fault", read.err());
        let model = (model, "cache wrong at", model_wrong);
        let product = (product, "cache wrong at", product_wrong);
        Err(Difference::new(
            what,
            &given,
            [("model", &model), ("archive", &product)],
        ))
    }

    /// The model's sheet, and what it made of the message. Bytes that the reader
    /// refuses change nothing.
    fn ask_model(&mut self, arrival: &Arrival, read: &Read) -> (Sheet, Receipt) {
        let (answer, after, sheet) = match read {
            Ok(message) => self.step_model(arrival, &arrival.call(message)),
            Err(fault) => (fault.number(), arrival.record, Sheet::default()),
        };
        let outcome = Outcome {
            answer,
            connection: translate::connection(&after),
            actions: translate::actions(&sheet),
        };
        let reading = Reading::of_plain(arrival.bytes, read, Default::default());
        let place = reading.message.place;
        (sheet, Receipt { outcome, place })
    }

    fn step_model(&mut self, arrival: &Arrival, call: &Call) -> (u32, Record, Sheet) {
        let (record, verdict) = (&arrival.record, arrival.token.verdict);
        let cache = &mut self.caches.model[..arrival.cache_len];
        numbers::step(arrival.edition, record, call, verdict, cache)
    }

    /// The slots hold rubbish before, to see that each is written.
    fn ask_product(&mut self, arrival: &Arrival) -> Receipt {
        let mut connection = translate::connection(&arrival.record);
        let mut actions = RUBBISH;
        let receipt = raw::receive(
            &mut connection,
            arrival.bytes,
            &arrival.token,
            &arrival.our_lists(),
            &mut self.caches.product[..arrival.cache_len],
            &mut actions,
        );
        let outcome = Outcome {
            answer: receipt.answer,
            connection,
            actions,
        };
        Receipt {
            outcome,
            place: receipt.place,
        }
    }

    /// A host takes the part from the receipt's place on, the model from the
    /// message that was read.
    fn parts_agree(
        &self,
        arrival: &Arrival,
        read: &Read,
        product: &Receipt,
        sheet: &Sheet,
    ) -> bool {
        let cache = &self.caches.product[..arrival.cache_len];
        let payload = match read {
            Ok(message) => arrival.call(message).payload,
            Err(_) => &[],
        };
        let model_part = model::part(sheet, payload, cache);
        let from_place = arrival.bytes.get(product.place..).unwrap_or(&[]);
        part(&product.outcome.actions, from_place, cache) == Some(model_part)
    }
}
