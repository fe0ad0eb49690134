//! The states of a connection.

use crate::numbered::numbered;

numbered! {
    /// A state, by document 01's names and numbers. RA is remote attestation, DAT the peer's token.
    State {
        /// Nothing has happened yet.
        ClosedUnlocked = 0,
        /// HELLO is sent, the peer's is awaited.
        WaitForHello = 1,
        /// Both drivers run.
        WaitForRa = 2,
        /// Only the prover runs.
        WaitForRaProver = 3,
        /// Only the verifier runs.
        WaitForRaVerifier = 4,
        /// The peer's token is spent, and the prover runs.
        WaitForDatAndRa = 5,
        /// The peer's token is spent, and the prover's run is good.
        WaitForDatAndRaVerifier = 6,
        /// Blocks can be sent and taken.
        Established = 7,
        /// A block is sent, and its ACK is awaited.
        WaitForAck = 8,
        /// Closed for good: every event is ignored.
        ClosedLocked = 9,
    }
}
