//! Document 01's boot run, as the beginning of a host's loop. After each call it prints the state and the number of
//! handled events; what a host would do goes to standard error.

use menhotrac::{
    Actions, Answer, Bit, Connection, DatTimerOrder, DriverOrder, Event, Lists, Message, Tag,
    TimerOrder, Token, CACHE_LEN,
};

const TOKEN: Token = Token {
    verdict: true,
    margin: 0,
    expiry: 1_060,
    now: 1_000,
};

const LISTS: Lists = Lists {
    our_verifiers: &[7, 3],
    peer_provers: &[3, 7],
    peer_verifiers: &[3],
    our_provers: &[3, 7],
};

/// What happens, in order. A host learns it from its channel, drivers, timers and application.
const RUN: [Event; 10] = [
    Event::UpperStartHandshake,
    Event::ScHello {
        token: TOKEN,
        lists: LISTS,
    },
    Event::RaProverOk(Tag(2)),
    // The verifier was started with tag 2: a report with tag 1 is ignored.
    Event::RaVerifierOk(Tag(1)),
    Event::RaVerifierOk(Tag(2)),
    Event::UpperSendData(&[1, 2, 3, 4, 5]),
    Event::ScReRa,
    // The prover has been started anew, with tag 6.
    Event::RaProverOk(Tag(2)),
    Event::ScAck(Bit::Zero),
    Event::RaProverOk(Tag(6)),
];

fn main() {
    let mut connection = Connection::fresh();
    let mut cache = [0u8; CACHE_LEN];
    for event in RUN {
        match connection.step(event, &mut cache) {
            Answer::Handled(actions) => carry_out(&actions),
            Answer::Ignored => eprintln!("ignored"),
            Answer::Refused(refusal) => eprintln!("refused: {refusal}"),
        }
        print(&connection);
    }
}

fn print(connection: &Connection) {
    match connection.state() {
        Some(state) => println!("{} {}", state.number(), connection.handled()),
        None => println!("no state"),
    }
}

fn carry_out(actions: &Actions) {
    if let Some(message) = actions.message {
        send(message, actions.part);
    }
    if let Some(suites) = actions.suites {
        eprintln!("verifier's suite {}", suites.verifier);
        eprintln!("prover's suite {}", suites.prover);
    }
    drive("prover", actions.prover, actions);
    drive("verifier", actions.verifier, actions);
    let timers = actions.timers;
    time("H", timers.h, actions.tag);
    time("HP", timers.hp, actions.tag);
    time("HV", timers.hv, actions.tag);
    time_token(timers.dat, actions.tag);
    time("RA", timers.ra, actions.tag);
    time("ACK", timers.ack, actions.tag);
    if actions.deliver {
        eprintln!("to the application: {:?}", actions.part);
    }
}

fn send(message: Message, part: &[u8]) {
    match message {
        Message::Hello => eprintln!("send HELLO with our token and suite lists"),
        Message::Dat => eprintln!("send DAT with our token"),
        Message::RaProver | Message::RaVerifier => eprintln!("send {message:?} with {part:?}"),
        Message::Data(bit) => eprintln!("send DATA, bit {}, with {part:?}", bit.number()),
        Message::Ack(bit) => eprintln!("send ACK, bit {}", bit.number()),
        Message::Close | Message::DatExpired | Message::ReRa => eprintln!("send {message:?}"),
    }
}

fn drive(driver: &str, order: Option<DriverOrder>, actions: &Actions) {
    match order {
        None => {}
        Some(DriverOrder::Start) => eprintln!("start the {driver}, tag {}", actions.tag.0),
        Some(DriverOrder::Stop) => eprintln!("stop the {driver}"),
        Some(DriverOrder::Forward) => eprintln!("to the {driver}: {:?}", actions.part),
    }
}

fn time(timer: &str, order: Option<TimerOrder>, tag: Tag) {
    match order {
        None => {}
        Some(TimerOrder::Start) => eprintln!("start {timer}, tag {}", tag.0),
        Some(TimerOrder::Cancel) => eprintln!("cancel {timer}"),
    }
}

fn time_token(order: Option<DatTimerOrder>, tag: Tag) {
    match order {
        None => {}
        Some(DatTimerOrder::Start { seconds }) => {
            eprintln!("start DAT for {seconds} seconds, tag {}", tag.0);
        }
        Some(DatTimerOrder::Cancel) => eprintln!("cancel DAT"),
    }
}
