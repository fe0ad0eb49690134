//! One end of an IDSCP2 connection between a boot loader and its image store, as a proved state machine.
//!
//! The step from event to actions and the reader of messages are proved against their definitions in Rattle and linked
//! as an archive; this crate gives them Rust's types. It allocates nothing, never panics and needs no `std`. Sockets,
//! TLS, running timers, attestation drivers and the check of a token's signature stay in the host.
//!
//! A host keeps a [`Connection`] and a cache of [`CACHE_LEN`] bytes for each peer. Whatever happens is an [`Event`]:
//! the host makes one call of [`Connection::step`] and carries out the [`Actions`]. Bytes of the peer go to
//! [`Connection::receive`], which reads the message and makes the step; [`Received::read`] gives the token that a host
//! has to check before. "Document 01" in comments is the paper that fixes states, events, refusals and the order sheet,
//! as its change requests amend it.
//!
//! # Example
//!
//! From a new connection to the first block. This host writes down what it would send and start.
//!
//! ```
//! use menhotrac::{
//!     Actions, Answer, Bit, Connection, DatTimerOrder, DriverOrder, Event, Lists, Message, State,
//!     Tag, Token, CACHE_LEN,
//! };
//!
//! #[derive(Default)]
//! struct Host {
//!     sent: Vec<(Message, Vec<u8>)>,
//!     prover: Tag,
//!     verifier: Tag,
//!     dat_seconds: u32,
//! }
//!
//! impl Host {
//!     fn handle(&mut self, connection: &mut Connection, event: Event, cache: &mut [u8]) {
//!         match connection.step(event, cache) {
//!             Answer::Handled(actions) => self.carry_out(&actions),
//!             Answer::Ignored => {}
//!             Answer::Refused(refusal) => eprintln!("refused: {refusal}"),
//!         }
//!     }
//!
//!     fn carry_out(&mut self, actions: &Actions) {
//!         if let Some(message) = actions.message {
//!             // The part that comes with an ACK is for the application.
//!             let bytes: &[u8] = if actions.deliver { &[] } else { actions.part };
//!             self.sent.push((message, bytes.to_vec()));
//!         }
//!         if actions.prover == Some(DriverOrder::Start) {
//!             self.prover = actions.tag;
//!         }
//!         if actions.verifier == Some(DriverOrder::Start) {
//!             self.verifier = actions.tag;
//!         }
//!         if let Some(DatTimerOrder::Start { seconds }) = actions.timers.dat {
//!             self.dat_seconds = seconds;
//!         }
//!         // The other timers, the drivers' stops and messages, and `deliver` alike.
//!     }
//! }
//!
//! let mut host = Host::default();
//! let mut connection = Connection::fresh();
//! let mut cache = [0u8; CACHE_LEN];
//!
//! host.handle(&mut connection, Event::UpperStartHandshake, &mut cache);
//!
//! // The peer's HELLO has come. The host has checked its token.
//! let token = Token { verdict: true, margin: 0, expiry: 1_060, now: 1_000 };
//! let lists = Lists {
//!     our_verifiers: &[7, 3],
//!     peer_provers: &[3, 7],
//!     peer_verifiers: &[3],
//!     our_provers: &[3, 7],
//! };
//! host.handle(&mut connection, Event::ScHello { token, lists }, &mut cache);
//! assert_eq!(host.dat_seconds, 60);
//!
//! // Both drivers are done. They report with the tag of their start.
//! host.handle(&mut connection, Event::RaProverOk(host.prover), &mut cache);
//! host.handle(&mut connection, Event::RaVerifierOk(host.verifier), &mut cache);
//! assert_eq!(connection.state(), Some(State::Established));
//!
//! host.handle(&mut connection, Event::UpperSendData(b"block"), &mut cache);
//! assert_eq!(connection.state(), Some(State::WaitForAck));
//! assert_eq!(host.sent[0], (Message::Hello, vec![]));
//! assert_eq!(host.sent[1], (Message::Data(Bit::Zero), b"block".to_vec()));
//! ```

#![no_std]
#![deny(unsafe_code)]
#![warn(missing_docs)]

mod actions;
mod call;
mod connection;
mod event;
mod message;
mod numbered;
#[allow(unsafe_code)]
pub mod raw;
mod read_refusal;
mod received;
mod refusal;
mod state;
mod suite_list;
mod suites;
mod tag;
mod token;

pub use actions::{Actions, DatTimerOrder, DriverOrder, TimerOrder, Timers};
pub use connection::{Answer, Connection, CACHE_LEN};
pub use event::{Event, HandshakeTimer, MAX_PAYLOAD_LEN};
pub use message::{Bit, Message};
pub use read_refusal::ReadRefusal;
pub use received::Received;
pub use refusal::Refusal;
pub use state::State;
pub use suite_list::SuiteList;
pub use suites::{choose_suites, Choice, Lists, OurLists, Suites, MAX_LIST_LEN};
pub use tag::{Tag, Tags};
pub use token::{seconds_left, Token, MAX_MARGIN};
