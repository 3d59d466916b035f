//! The refusal numbers, and the rule that the lowest that applies is given.

#[derive(Clone, Copy, Debug, PartialEq, Eq, PartialOrd, Ord)]
pub enum Refusal {
    NotAllowedHere = 1,
    Unknown = 2,
    NotHeld = 3,
    WrongSize = 4,
    AllZero = 5,
    NoSecretAtAll = 6,
    MessageLength = 7,
    MessageType = 8,
    OverLimit = 9,
    OutOfRange = 10,
    OutputTooShort = 11,
    UpdatesSpent = 12,
    RecordDamaged = 13,
}

/// The bytes written into the lent output, or why nothing was done.
pub type Answer = Result<usize, Refusal>;

/// The number of an answer: 0 is done.
pub fn number<T>(answer: &Result<T, Refusal>) -> u8 {
    match answer {
        Ok(_) => 0,
        Err(refusal) => *refusal as u8,
    }
}

/// Judges all rules of a call and gives the lowest that applies.
pub fn lowest<const N: usize>(rules: [(Refusal, bool); N]) -> Result<(), Refusal> {
    let applying = rules.iter().filter(|(_, applies)| *applies);
    match applying.map(|(refusal, _)| *refusal).min() {
        Some(refusal) => Err(refusal),
        None => Ok(()),
    }
}
