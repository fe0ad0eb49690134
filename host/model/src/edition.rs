//! RA as document 01 prints it, and as request #102 mends it.

/// The rules for RA, the re-attestation timer; nothing else differs.
#[derive(Clone, Copy, Debug, PartialEq, Eq)]
pub enum Edition {
    /// "RA starts at event 4, is cancelled when a verifier starts, when 21 is
    /// handled in 7 or 8, and by locking"; it is "on in 3, 7, 8, on or off in 5
    /// and 6, off elsewhere".
    Printed,
    /// "21 cancels RA in every state where it runs, and the well-formed list has
    /// RA off in 5 and 6."
    Mended,
}

impl Edition {
    pub const ALL: [Edition; 2] = [Edition::Printed, Edition::Mended];

    pub fn name(self) -> &'static str {
        match self {
            Edition::Printed => "printed",
            Edition::Mended => "mended",
        }
    }
}
