//! A connection and its step, with an event or with a message of the peer.

use crate::actions::Actions;
use crate::event::Event;
use crate::raw;
use crate::read_refusal::ReadRefusal;
use crate::refusal::Refusal;
use crate::state::State;
use crate::suites::OurLists;
use crate::tag::Tags;
use crate::token::Token;

/// The fewest bytes of a cache.
pub const CACHE_LEN: usize = 4096;

/// One end of a connection: document 01's record. It is no `Copy`, so that no stale copy is stepped by mistake.
#[derive(Clone, Debug, PartialEq, Eq)]
pub struct Connection {
    record: raw::Connection,
}

/// The answer to a call.
#[must_use = "a handled call's actions are to be carried out"]
#[derive(Clone, Copy, Debug, PartialEq, Eq)]
pub enum Answer<'a> {
    /// The record has changed, and this is to be done.
    Handled(Actions<'a>),
    /// The event means nothing in this state, or is of an earlier start. Nothing has changed.
    Ignored,
    /// The call has a fault. Nothing has changed.
    Refused(Refusal),
}

impl Connection {
    /// A new connection.
    pub fn fresh() -> Self {
        Self::from_raw(raw::fresh())
    }

    /// A connection from a stored record. Any numbers may be given: a record that is not well formed is refused at each
    /// step, by [`Refusal::NotWellFormed`] unless the call has a fault of a lower number.
    #[inline]
    pub const fn from_raw(record: raw::Connection) -> Self {
        Self { record }
    }

    /// The record, to be stored. Its block is in the host's cache and is to be stored with it.
    #[inline]
    pub const fn raw(&self) -> raw::Connection {
        self.record
    }

    /// The state; none if its number is above 9, and so the record not well formed.
    #[inline]
    pub const fn state(&self) -> Option<State> {
        State::from_number(self.record.state)
    }

    /// Document 01's number: how many events have been handled.
    #[inline]
    pub const fn handled(&self) -> u32 {
        self.record.handled
    }

    /// The tags of what is running.
    #[inline]
    pub const fn tags(&self) -> Tags {
        Tags::of(&self.record)
    }

    /// One step: what becomes of an event.
    ///
    /// The cache holds the block that waits for its ACK. A host lends the same one, of [`CACHE_LEN`] bytes or more, at
    /// each call of a connection, and leaves its bytes alone. The answer borrows it: the actions are to be carried out
    /// before the next step.
    // Always inlined, with its two conversions: what a call site fixes, or does not read, is then not converted.
    #[inline(always)]
    pub fn step<'a>(&mut self, event: Event<'a>, cache: &'a mut [u8]) -> Answer<'a> {
        let call = event.call();
        let mut sheet = raw::Actions::default();
        let number = raw::step(
            &mut self.record,
            &call.event,
            call.payload,
            &call.lists,
            cache,
            &mut sheet,
        );
        self.answer(number, &sheet, call.payload, cache)
    }

    /// One step with a message of the peer: reads the bytes, which have to be one whole message, and does what
    /// [`step`](Self::step) does with the event that the message is. A HELLO brings the peer's suite lists; ours are
    /// given with every message.
    ///
    /// The token is what the host says of the one in a HELLO or DAT, and is not read for other messages; without it a
    /// HELLO or DAT counts as one whose token the host does not accept. [`Received::token`] gives the bytes to check.
    ///
    /// The error says that the bytes are no message. Nothing has changed then; a host that gives the connection up
    /// steps with [`Event::ScError`]. The part of the actions is a part of the bytes or of the cache.
    ///
    /// ```
    /// use menhotrac::{
    ///     Answer, Connection, Event, OurLists, ReadRefusal, Received, State, Token, CACHE_LEN,
    /// };
    ///
    /// const OURS: OurLists = OurLists { verifiers: &[7, 3], provers: &[3, 7] };
    ///
    /// /// Stands for the check of signature and content.
    /// fn check(token: &[u8]) -> Token {
    ///     Token { verdict: token == b"token", margin: 0, expiry: 1_060, now: 1_000 }
    /// }
    ///
    /// fn arrives<'a>(
    ///     connection: &mut Connection,
    ///     bytes: &'a [u8],
    ///     cache: &'a mut [u8],
    /// ) -> Result<Answer<'a>, ReadRefusal> {
    ///     let token = Received::read(bytes)?.token().map(check);
    ///     connection.receive(bytes, token, OURS, cache)
    /// }
    ///
    /// let mut connection = Connection::fresh();
    /// let mut cache = [0; CACHE_LEN];
    /// let _ = connection.step(Event::UpperStartHandshake, &mut cache);
    ///
    /// // HELLO with the token, the suites 3 and 7 of the peer's prover and the suite 3 of its verifier.
    /// let hello = b"\x0a\x0e\x0a\x05token\x12\x02\x03\x07\x1a\x01\x03";
    /// let cut = arrives(&mut connection, &hello[..9], &mut cache);
    /// assert_eq!(cut, Err(ReadRefusal::EndsTooSoon));
    /// let answer = arrives(&mut connection, hello, &mut cache);
    /// assert!(matches!(answer, Ok(Answer::Handled(_))));
    /// assert_eq!(connection.state(), Some(State::WaitForRa));
    /// ```
    ///
    /// [`Received::token`]: crate::Received::token
    #[inline(always)]
    pub fn receive<'a>(
        &mut self,
        bytes: &'a [u8],
        token: Option<Token>,
        lists: OurLists,
        cache: &'a mut [u8],
    ) -> Result<Answer<'a>, ReadRefusal> {
        let token = token.map_or_else(Default::default, Token::raw);
        let mut sheet = raw::Actions::default();
        let receipt = raw::receive(&mut self.record, bytes, &token, &lists, cache, &mut sheet);
        if let Some(refusal) = ReadRefusal::from_number(receipt.answer) {
            return Err(refusal);
        }
        let payload = bytes.get(receipt.place..).unwrap_or(&[]);
        Ok(self.answer(receipt.answer, &sheet, payload, cache))
    }

    /// The answer with a number. A part of the payload begins with its first byte.
    #[inline(always)]
    fn answer<'a>(
        &self,
        number: u32,
        sheet: &raw::Actions,
        payload: &'a [u8],
        cache: &'a [u8],
    ) -> Answer<'a> {
        match number {
            raw::HANDLED => {
                Answer::Handled(Actions::of(sheet, self.record.handled, payload, cache))
            }
            raw::IGNORED => Answer::Ignored,
            _ => Answer::Refused(refusal(number)),
        }
    }
}

/// The refusal with a number. The archive gives 4 to 9 here, since typed events and messages cannot have the faults 1
/// to 3 or 41; any other number means that archive and bindings do not belong together.
#[cold]
fn refusal(number: u32) -> Refusal {
    Refusal::from_number(number).unwrap_or(Refusal::UnknownCode)
}
