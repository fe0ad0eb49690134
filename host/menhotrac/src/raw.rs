//! The archive's functions over plain numbers, as C sees them. This is the only file with `unsafe`.

use core::mem::{align_of, offset_of, size_of};

use crate::suites::MAX_LIST_LEN;

/// The record of a connection: document 01's record, one number for each field.
#[repr(C)]
#[derive(Clone, Copy, Debug, Default, PartialEq, Eq)]
pub struct Connection {
    /// 0 to 9, as [`State`](crate::State) numbers them.
    pub state: u32,
    /// The ack flag: 1 while a block waits for its ACK.
    pub awaiting_ack: u32,
    /// The bit of the next or waiting block.
    pub next_send_bit: u32,
    /// The bit that the peer's next block must have.
    pub expected_bit: u32,
    /// The length of the block that waits, in the first bytes of the cache.
    pub cached_len: u32,
    /// The number of handled events.
    pub handled: u32,
    /// The tag of the timer H. A tag is 0 while its driver or timer is off.
    pub h: u32,
    /// The tag of the prover and its timer HP.
    pub prover: u32,
    /// The tag of the verifier and its timer HV.
    pub verifier: u32,
    /// The tag of the DAT timer.
    pub dat: u32,
    /// The tag of the RA timer.
    pub ra: u32,
    /// The tag of the ACK timer.
    pub ack: u32,
}

/// An event. Only the fields that its code carries are read.
#[repr(C)]
#[derive(Clone, Copy, Debug, Default, PartialEq, Eq)]
pub struct Event {
    /// 0 to 23, in the order of [`Event`](crate::Event)'s variants.
    pub code: u32,
    /// Of the codes 4 to 9 and 20 to 23.
    pub tag: u32,
    /// Of the code 20: 0 H, 1 HP, 2 HV.
    pub timer: u32,
    /// Of the codes 18 and 19.
    pub bit: u32,
    /// Of the codes 11 and 13: 0 no, 1 yes; any other number is refused with `WRONG_VERDICT`.
    pub verdict: u32,
    /// Of the codes 11 and 13: how many seconds before its expiry the token counts as spent, 0 to
    /// [`MAX_MARGIN`](crate::MAX_MARGIN).
    pub margin: u32,
    /// Of the codes 11 and 13: when the token expires, in seconds.
    pub expiry: i64,
    /// Of the codes 11 and 13: the time now, in seconds.
    pub now: i64,
}

/// The four suite lists of a hello.
#[derive(Clone, Copy, Debug, Default, PartialEq, Eq)]
pub struct Lists<'a> {
    /// The suites that our verifier knows, the preferred one first.
    pub our_verifiers: &'a [u32],
    /// The suites that the peer's prover knows.
    pub peer_provers: &'a [u32],
    /// The suites that the peer's verifier knows, the preferred one first.
    pub peer_verifiers: &'a [u32],
    /// The suites that our prover knows.
    pub our_provers: &'a [u32],
}

/// The suite lists of our side, for a message that may be a hello.
#[derive(Clone, Copy, Debug, Default, PartialEq, Eq)]
pub struct OurLists<'a> {
    /// The suites that our verifier knows, the preferred one first.
    pub verifiers: &'a [u32],
    /// The suites that our prover knows.
    pub provers: &'a [u32],
}

/// What the host says of the token in a HELLO or DAT. It is not read for other messages.
#[repr(C)]
#[derive(Clone, Copy, Debug, Default, PartialEq, Eq)]
pub struct Token {
    /// 0 no, 1 yes; any other number is refused with `WRONG_VERDICT`.
    pub verdict: u32,
    /// How many seconds before its expiry the token counts as spent, 0 to [`MAX_MARGIN`](crate::MAX_MARGIN).
    pub margin: u32,
    /// When the token expires, in seconds.
    pub expiry: i64,
    /// The time now, in seconds.
    pub now: i64,
}

/// What the host is to do: document 01's order sheet.
#[repr(C)]
#[derive(Clone, Copy, Debug, Default, PartialEq, Eq)]
pub struct Actions {
    /// The message, as [`Message`](crate::Message) numbers it; 0 for none, here and in the next eight.
    pub message: u32,
    /// The order to the prover, as [`DriverOrder`](crate::DriverOrder) numbers it.
    pub prover: u32,
    /// The order to the verifier.
    pub verifier: u32,
    /// The order to the timer H, as [`TimerOrder`](crate::TimerOrder) numbers it.
    pub h: u32,
    /// The order to the timer HP.
    pub hp: u32,
    /// The order to the timer HV.
    pub hv: u32,
    /// The order to the DAT timer.
    pub dat: u32,
    /// The order to the RA timer.
    pub ra: u32,
    /// The order to the ACK timer.
    pub ack: u32,
    /// The length of the DAT timer where it starts, else 0.
    pub dat_seconds: u32,
    /// The bit of a DATA or ACK, else 0.
    pub bit: u32,
    /// 1 where the payload goes to the application, else 0.
    pub deliver: u32,
    /// The verifier's suite where the connection opens, else 0.
    pub verifier_suite: u32,
    /// The prover's suite where the connection opens, else 0.
    pub prover_suite: u32,
    /// The slice that the payload part is of: 0 none, 1 the event's payload, 2 the cache.
    pub payload_slice: u32,
    /// The length of the payload part, from the slice's first byte.
    pub payload_len: u32,
}

/// The seconds left of a token, asked alone.
#[derive(Clone, Copy, Debug, Default, PartialEq, Eq)]
pub struct TimeLeft {
    /// 0 for none, 9 where the margin is above 300.
    pub refusal: u32,
    /// The seconds, 0 where they are refused.
    pub seconds: i64,
}

/// The choice of suites, asked alone. The suites are 0 where they were not found or the choice was refused.
#[derive(Clone, Copy, Debug, Default, PartialEq, Eq)]
pub struct Choice {
    /// 0 for none, 6 where a list has more than 16 entries.
    pub refusal: u32,
    /// 1 where the verifier's suite was found, else 0.
    pub verifier_found: u32,
    /// The verifier's suite.
    pub verifier: u32,
    /// 1 where the prover's suite was found, else 0.
    pub prover_found: u32,
    /// The prover's suite.
    pub prover: u32,
}

impl Choice {
    /// The refusal, and the four numbers in the order in which the archive writes them.
    #[inline]
    pub fn new(refusal: u32, chosen: [u32; 4]) -> Choice {
        let [verifier_found, verifier, prover_found, prover] = chosen;
        Choice {
            refusal,
            verifier_found,
            verifier,
            prover_found,
            prover,
        }
    }
}

/// What was read from the peer's bytes. All but the refusal is 0 where they are refused.
#[repr(C)]
#[derive(Clone, Copy, Debug, Default, PartialEq, Eq)]
pub struct Message {
    /// `NOT_REFUSED`, or the refusal, as [`ReadRefusal`](crate::ReadRefusal) numbers it.
    pub refusal: u32,
    /// 1 to 9, as [`Message`](crate::Message) numbers it.
    pub number: u32,
    /// The bit of a DATA or ACK, else 0.
    pub bit: u32,
    /// How many suites a HELLO names for the peer's prover, else 0.
    pub provers: usize,
    /// How many suites a HELLO names for the peer's verifier, else 0.
    pub verifiers: usize,
    /// Where the token or payload begins in the bytes; 0 where there is none.
    pub place: usize,
    /// The length of the token or payload.
    pub size: usize,
}

/// The answer to the bytes of a message.
#[repr(C)]
#[derive(Clone, Copy, Debug, Default, PartialEq, Eq)]
pub struct Receipt {
    /// As of a step; also the reader's refusal, as [`ReadRefusal`](crate::ReadRefusal) numbers it.
    pub answer: u32,
    /// Where the token or payload begins in the bytes; 0 where there is none, or where the reader refused the bytes.
    pub place: usize,
}

/// Room for a suite list.
pub type SuiteEntries = [u32; MAX_LIST_LEN];

/// The refusal of bytes that are a message: none.
pub const NOT_REFUSED: u32 = 0;
/// The answer to a handled call.
pub const HANDLED: u32 = 0;
/// The refusal of a verdict that is neither 0 nor 1. The numbers from 1 to 9 are those of
/// [`Refusal`](crate::Refusal).
pub const WRONG_VERDICT: u32 = 41;
/// The answer to an ignored call.
pub const IGNORED: u32 = 100;

extern "C" {
    fn menhotrac_fresh(connection: *mut Connection);

    fn menhotrac_step(
        connection: *mut Connection,
        event: Event,
        payload: *const u8,
        payload_len: usize,
        cache: *mut u8,
        cache_len: usize,
        actions: *mut Actions,
        our_verifiers: *const u32,
        our_verifiers_len: usize,
        peer_provers: *const u32,
        peer_provers_len: usize,
        peer_verifiers: *const u32,
        peer_verifiers_len: usize,
        our_provers: *const u32,
        our_provers_len: usize,
    ) -> u32;

    fn menhotrac_seconds_left(expiry: i64, now: i64, margin: u32, seconds: *mut i64) -> u32;

    fn menhotrac_choose_suites(
        our_verifiers: *const u32,
        our_verifiers_len: usize,
        peer_provers: *const u32,
        peer_provers_len: usize,
        peer_verifiers: *const u32,
        peer_verifiers_len: usize,
        our_provers: *const u32,
        our_provers_len: usize,
        chosen: *mut [u32; 4],
    ) -> u32;

    fn menhotrac_read(
        bytes: *const u8,
        bytes_len: usize,
        provers: *mut SuiteEntries,
        verifiers: *mut SuiteEntries,
    ) -> Message;

    fn menhotrac_event_of(number: u32, bit: u32, token: Token) -> Event;
}

// The archive takes record and actions as 12 and 16 numbers, and the other structs in C's layout.
const _: () = {
    assert!(size_of::<Connection>() == 12 * 4 && align_of::<Connection>() == 4);
    assert!(offset_of!(Connection, handled) == 5 * 4 && offset_of!(Connection, ack) == 11 * 4);
    assert!(size_of::<Actions>() == 16 * 4 && align_of::<Actions>() == 4);
    assert!(offset_of!(Actions, deliver) == 11 * 4 && offset_of!(Actions, payload_len) == 15 * 4);
    assert!(size_of::<Event>() == 40 && align_of::<Event>() == 8);
    assert!(offset_of!(Event, verdict) == 16 && offset_of!(Event, margin) == 20);
    assert!(offset_of!(Event, expiry) == 24 && offset_of!(Event, now) == 32);
    assert!(size_of::<Token>() == 24 && align_of::<Token>() == 8);
    assert!(offset_of!(Token, verdict) == 0 && offset_of!(Token, margin) == 4);
    assert!(offset_of!(Token, expiry) == 8 && offset_of!(Token, now) == 16);
    assert!(size_of::<Message>() == 48 && align_of::<Message>() == 8);
    assert!(offset_of!(Message, bit) == 8 && offset_of!(Message, provers) == 16);
    assert!(offset_of!(Message, place) == 32 && offset_of!(Message, size) == 40);
    assert!(size_of::<Receipt>() == 16 && align_of::<Receipt>() == 8);
    assert!(offset_of!(Receipt, place) == 8);
    assert!(size_of::<SuiteEntries>() == 16 * 4 && align_of::<SuiteEntries>() == 4);
};

/// The record of a new connection.
pub fn fresh() -> Connection {
    let mut connection = Connection::default();
    // SAFETY: the pointer is to a whole record, lent for the call alone.
    unsafe { menhotrac_fresh(&mut connection) };
    connection
}

/// One step: changes the record, writes the actions, and answers `HANDLED`, `IGNORED` or the number of the refusal.
/// Any numbers and slices may be given; a refused or ignored call leaves record and cache as they are and orders
/// nothing.
#[inline]
pub fn step(
    connection: &mut Connection,
    event: &Event,
    payload: &[u8],
    lists: &Lists,
    cache: &mut [u8],
    actions: &mut Actions,
) -> u32 {
    // SAFETY: each pointer comes with the length of its slice or is to a whole struct of the asserted layout. What is
    // written is lent by `&mut`, so nothing overlaps it. The archive is proved to stay within what it is lent.
    unsafe {
        menhotrac_step(
            connection,
            *event,
            payload.as_ptr(),
            payload.len(),
            cache.as_mut_ptr(),
            cache.len(),
            actions,
            lists.our_verifiers.as_ptr(),
            lists.our_verifiers.len(),
            lists.peer_provers.as_ptr(),
            lists.peer_provers.len(),
            lists.peer_verifiers.as_ptr(),
            lists.peer_verifiers.len(),
            lists.our_provers.as_ptr(),
            lists.our_provers.len(),
        )
    }
}

/// Expiry minus now minus margin, clamped to a day either way; or the refusal of the margin.
pub fn seconds_left(expiry: i64, now: i64, margin: u32) -> TimeLeft {
    let mut seconds = 0;
    // SAFETY: the pointer is to a number, lent for the call alone.
    let refusal = unsafe { menhotrac_seconds_left(expiry, now, margin, &mut seconds) };
    TimeLeft { refusal, seconds }
}

/// The choice of suites.
pub fn choose_suites(lists: &Lists) -> Choice {
    let mut chosen = [0; 4];
    // SAFETY: as in `step`.
    let refusal = unsafe {
        menhotrac_choose_suites(
            lists.our_verifiers.as_ptr(),
            lists.our_verifiers.len(),
            lists.peer_provers.as_ptr(),
            lists.peer_provers.len(),
            lists.peer_verifiers.as_ptr(),
            lists.peer_verifiers.len(),
            lists.our_provers.as_ptr(),
            lists.our_provers.len(),
            &mut chosen,
        )
    };
    Choice::new(refusal, chosen)
}

/// Reads one message, which has to be all of the bytes. A HELLO's suites are written into the two lists, with zeros
/// behind them; otherwise the lists keep what they hold.
#[inline]
pub fn read(bytes: &[u8], provers: &mut SuiteEntries, verifiers: &mut SuiteEntries) -> Message {
    // SAFETY: the pointer to the bytes comes with their length, the other two are to whole lists. What is written is
    // lent by `&mut`, so nothing overlaps it. The archive is proved to stay within what it is lent.
    unsafe { menhotrac_read(bytes.as_ptr(), bytes.len(), provers, verifiers) }
}

/// Reads one message, which has to be all of the bytes, and steps with the event that it is. It changes the record and
/// writes the actions as `step` does; where the reader refuses the bytes, record and cache stay as they are and nothing
/// is ordered. A part of the event's payload begins at the receipt's place in the bytes.
#[inline]
pub fn receive(
    connection: &mut Connection,
    bytes: &[u8],
    token: &Token,
    lists: &OurLists,
    cache: &mut [u8],
    actions: &mut Actions,
) -> Receipt {
    let (mut provers, mut verifiers) = ([0; MAX_LIST_LEN], [0; MAX_LIST_LEN]);
    let message = read(bytes, &mut provers, &mut verifiers);
    if message.refusal != NOT_REFUSED {
        *actions = Actions::default();
        return Receipt {
            answer: message.refusal,
            place: 0,
        };
    }
    let lists = Lists {
        our_verifiers: lists.verifiers,
        peer_provers: &provers[..message.provers],
        peer_verifiers: &verifiers[..message.verifiers],
        our_provers: lists.provers,
    };
    let payload = &bytes[message.place..][..message.size];
    let answer = step(
        connection,
        &event(message.number, message.bit, token),
        payload,
        &lists,
        cache,
        actions,
    );
    Receipt {
        answer,
        place: message.place,
    }
}

/// The event that a message is, by its number and bit, with what the host says of the token.
pub fn event(number: u32, bit: u32, token: &Token) -> Event {
    // SAFETY: all arguments are plain values.
    unsafe { menhotrac_event_of(number, bit, *token) }
}
