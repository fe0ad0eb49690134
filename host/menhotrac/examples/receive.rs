//! Document 01's boot run with the peer's messages as bytes: how a host checks a token and receives. After each call it
//! prints the state and the number of handled events; what a host would do goes to standard error.

use menhotrac::{
    Answer, Connection, Event, OurLists, ReadRefusal, Received, Tag, Token, CACHE_LEN,
};

const OURS: OurLists = OurLists {
    verifiers: &[7, 3],
    provers: &[3, 7],
};

/// The one token that this host accepts.
const GOOD_TOKEN: &[u8] = b"token";

/// HELLO with that token, the suites 3 and 7 of the peer's prover and the suite 3 of its verifier.
const HELLO: &[u8] = b"\x0a\x0e\x0a\x05token\x12\x02\x03\x07\x1a\x01\x03";
const RE_RA: &[u8] = b"\x2a\x00";
/// ACK with bit 0.
const ACK: &[u8] = b"\x4a\x02\x08\x00";

/// What a host learns of.
enum Happening {
    /// From its application, drivers and timers.
    Here(Event<'static>),
    /// From its channel: one whole message of the peer.
    Came(&'static [u8]),
}

/// What happens, in order.
const RUN: [Happening; 10] = [
    Happening::Here(Event::UpperStartHandshake),
    Happening::Came(HELLO),
    Happening::Here(Event::RaProverOk(Tag(2))),
    // The verifier was started with tag 2: a report with tag 1 is ignored.
    Happening::Here(Event::RaVerifierOk(Tag(1))),
    Happening::Here(Event::RaVerifierOk(Tag(2))),
    Happening::Here(Event::UpperSendData(&[1, 2, 3, 4, 5])),
    Happening::Came(RE_RA),
    // The prover has been started anew, with tag 6.
    Happening::Here(Event::RaProverOk(Tag(2))),
    Happening::Came(ACK),
    Happening::Here(Event::RaProverOk(Tag(6))),
];

fn main() {
    let mut connection = Connection::fresh();
    let mut cache = [0u8; CACHE_LEN];
    for happening in RUN {
        match happening {
            Happening::Here(event) => carry_out(connection.step(event, &mut cache)),
            Happening::Came(bytes) => match receive(&mut connection, bytes, &mut cache) {
                Ok(answer) => carry_out(answer),
                // The peer does not keep to the protocol: the host gives the connection up.
                Err(refusal) => {
                    eprintln!("no message: {refusal}");
                    carry_out(connection.step(Event::ScError, &mut cache));
                }
            },
        }
        print(&connection);
    }
}

/// A message has come. A token in it is checked first, since the step needs the verdict.
fn receive<'a>(
    connection: &mut Connection,
    bytes: &'a [u8],
    cache: &'a mut [u8],
) -> Result<Answer<'a>, ReadRefusal> {
    let token = Received::read(bytes)?.token().map(check);
    connection.receive(bytes, token, OURS, cache)
}

/// A host checks the signature and reads the expiry from the token, and the time from its clock. It may let tokens
/// count as spent up to 300 seconds early, with a margin.
fn check(token: &[u8]) -> Token {
    Token {
        verdict: token == GOOD_TOKEN,
        margin: 0,
        expiry: 1_060,
        now: 1_000,
    }
}

/// The example `boot` shows a host's part in this.
fn carry_out(answer: Answer) {
    match answer {
        Answer::Handled(actions) => eprintln!("{actions:?}"),
        Answer::Ignored => eprintln!("ignored"),
        Answer::Refused(refusal) => eprintln!("refused: {refusal}"),
    }
}

fn print(connection: &Connection) {
    match connection.state() {
        Some(state) => println!("{} {}", state.number(), connection.handled()),
        None => println!("no state"),
    }
}
