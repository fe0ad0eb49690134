//! "The published table".

use crate::call::{carries_tag, code, Call, Event};
use crate::record::Record;
use crate::timers::Timer;
use Cell::{Either, No, Stay, To};

/// A row of the table. The first five are the sentences above it.
#[derive(Clone, Copy, Debug, PartialEq, Eq)]
pub(crate) enum Row {
    Start,
    GoodHello,
    BadHello,
    Close,
    Lost,
    ProverOk,
    VerifierOk,
    ProverFailed,
    VerifierFailed,
    ProverMessage,
    VerifierMessage,
    DatAsked,
    ReRaAsked,
    GoodDat,
    BadDat,
    AskReRa,
    DatTimeout,
    ToVerifier,
    ToProver,
    SendData,
    Data,
    Ack,
    Repeat,
}

/// What a state does with a row's event.
#[derive(Clone, Copy)]
enum Cell {
    /// "-": ignored.
    No,
    /// "s": stay.
    Stay,
    /// "7/8": 8 if the flag is set, else 7.
    Either,
    To(u32),
}

/// What the table holds in a row.
struct Entries {
    row: Row,
    events: &'static [u32],
    /// One cell for each of the states 0 to 8; "state 9 ignores all".
    cells: [Cell; 9],
}

const fn entries(row: Row, events: &'static [u32], cells: [Cell; 9]) -> Entries {
    Entries { row, events, cells }
}

#[rustfmt::skip]
const TABLE: [Entries; 23] = [
    //                                        0      1      2      3       4       5      6      7      8
    entries(Row::Start,           &[0],      [To(1), No,    No,    No,     No,     No,    No,    No,    No]),
    entries(Row::GoodHello,       &[11],     [No,    To(2), No,    No,     No,     No,    No,    No,    No]),
    entries(Row::BadHello,        &[11],     [No,    To(9), No,    No,     No,     No,    No,    No,    No]),
    entries(Row::Close,           &[1, 20],  [No,    To(9), To(9), To(9),  To(9),  To(9), To(9), To(9), To(9)]),
    entries(Row::Lost,            &[10, 12], [No,    To(9), To(9), To(9),  To(9),  To(9), To(9), To(9), To(9)]),
    entries(Row::ProverOk,        &[7],      [No,    No,    To(4), Either, No,     To(6), No,    No,    No]),
    entries(Row::VerifierOk,      &[4],      [No,    No,    To(3), No,     Either, No,    No,    No,    No]),
    entries(Row::ProverFailed,    &[8],      [No,    No,    To(9), To(9),  No,     To(9), No,    No,    No]),
    entries(Row::VerifierFailed,  &[5],      [No,    No,    To(9), No,     To(9),  No,    No,    No,    No]),
    entries(Row::ProverMessage,   &[9],      [No,    No,    Stay,  Stay,   No,     Stay,  No,    No,    No]),
    entries(Row::VerifierMessage, &[6],      [No,    No,    Stay,  No,     Stay,   No,    No,    No,    No]),
    entries(Row::DatAsked,        &[14],     [No,    No,    Stay,  Stay,   To(2),  Stay,  To(5), To(3), To(3)]),
    entries(Row::ReRaAsked,       &[17],     [No,    No,    Stay,  Stay,   To(2),  Stay,  To(5), To(3), To(3)]),
    entries(Row::GoodDat,         &[13],     [No,    No,    No,    No,     No,     To(2), To(4), No,    No]),
    entries(Row::BadDat,          &[13],     [No,    No,    No,    No,     No,     To(9), To(9), No,    No]),
    entries(Row::AskReRa,         &[3, 22],  [No,    No,    No,    To(2),  No,     No,    No,    To(4), To(4)]),
    entries(Row::DatTimeout,      &[21],     [No,    No,    To(5), To(5),  To(6),  No,    No,    To(6), To(6)]),
    entries(Row::ToVerifier,      &[15],     [No,    No,    Stay,  No,     Stay,   No,    No,    No,    No]),
    entries(Row::ToProver,        &[16],     [No,    No,    Stay,  Stay,   No,     Stay,  No,    No,    No]),
    entries(Row::SendData,        &[2],      [No,    No,    No,    No,     No,     No,    No,    To(8), No]),
    entries(Row::Data,            &[18],     [No,    No,    No,    No,     No,     No,    No,    Stay,  Stay]),
    entries(Row::Ack,             &[19],     [No,    No,    Stay,  Stay,   Stay,   Stay,  Stay,  No,    To(7)]),
    entries(Row::Repeat,          &[23],     [No,    No,    No,    No,     No,     No,    No,    No,    Stay]),
];

impl Row {
    /// Whether the row, and not its twin, is the one for this call's token.
    fn suits(self, call: &Call) -> bool {
        match self {
            Row::GoodHello => call.good_hello(),
            Row::BadHello => !call.good_hello(),
            Row::GoodDat => call.good_token(),
            Row::BadDat => !call.good_token(),
            _ => true,
        }
    }

    pub(crate) fn starts_prover(self) -> bool {
        matches!(self, Row::GoodHello | Row::DatAsked | Row::ReRaAsked)
    }

    pub(crate) fn starts_verifier(self) -> bool {
        matches!(self, Row::GoodHello | Row::GoodDat | Row::AskReRa)
    }
}

/// The record's tag of the driver or timer that a tagged event speaks for.
fn tag_of_sender(record: &Record, event: &Event) -> u32 {
    match event.code {
        code::RA_VERIFIER_OK..=code::RA_VERIFIER_MSG => record.verifier,
        code::RA_PROVER_OK..=code::RA_PROVER_MSG => record.prover,
        _ => Timer::reported(event).map_or(0, |timer| timer.tag(record)),
    }
}

/// "Its tag isn't 0 and equals the record's tag of that driver or timer."
pub fn live(record: &Record, event: &Event) -> bool {
    carries_tag(event.code) && event.tag != 0 && event.tag == tag_of_sender(record, event)
}

/// Whether an event with a tag is live, and one with a bit has the right one.
fn fits(record: &Record, event: &Event) -> bool {
    match event.code {
        code::SC_DATA => event.bit == record.expected_bit,
        code::SC_ACK => record.ack_flag == 1 && event.bit == record.next_send_bit,
        tagged if carries_tag(tagged) => live(record, event),
        _ => true,
    }
}

/// The row that handles the call and the state it leads to; none if ignored.
pub(crate) fn look_up(record: &Record, call: &Call) -> Option<(Row, u32)> {
    if !fits(record, &call.event) {
        return None;
    }
    let entries = TABLE
        .iter()
        .find(|entries| entries.events.contains(&call.event.code) && entries.row.suits(call))?;
    let to = match *entries.cells.get(record.state as usize)? {
        No => return None,
        Stay => record.state,
        Either if record.ack_flag == 1 => 8,
        Either => 7,
        To(state) => state,
    };
    Some((entries.row, to))
}

/// Every handled (state, event, next state) that can occur from fresh: the
/// table without a live 20 where none of the timers H, HP and HV runs.
pub fn transitions() -> Vec<(u32, u32, u32)> {
    let mut all = Vec::new();
    for entries in &TABLE {
        for (state, cell) in (0..).zip(entries.cells) {
            let next: &[u32] = match cell {
                No => &[],
                Stay => &[state],
                Either => &[7, 8],
                To(next) => &[next],
            };
            for &event in entries.events {
                all.extend(next.iter().map(|&next| (state, event, next)));
            }
        }
    }
    all.retain(|&(state, event, _)| {
        event != code::HANDSHAKE_TIMEOUT || Timer::HANDSHAKE.iter().any(|t| t.runs_in(state))
    });
    all
}
