//! Answers taken apart. Bits of a word: 0..7 the refusal, 8..15 the outcome, 16..23 the reason, 32..63 the count; of
//! the word of a rule: 0..31 the size, 32..63 the start.
use crate::{Outcome, Reason, Refusal, CHECK_OUTPUT};
use std::ops::Range;

/// The answer of a run: a refusal, or the outcome and the number of considerations.
pub fn ran(word: u64) -> Result<(Outcome, u32), Refusal> {
    if let Some(refusal) = refusal(word) {
        return Err(refusal);
    }
    let outcome = match word as u32 >> 8 {
        0x0000 => Outcome::Commit,
        0x0001 => Outcome::RolledBack,
        0x0002 => Outcome::StepLimit,
        0x0103 => Outcome::Failed(Reason::NoSuchRow),
        0x0203 => Outcome::Failed(Reason::Full),
        0x0303 => Outcome::Failed(Reason::HandlesUsedUp),
        0x0403 => Outcome::Failed(Reason::SumOutOfRange),
        _ => unknown(word),
    };
    Ok((outcome, (word >> 32) as u32))
}

/// The answer of a book check that was lent enough output: refusal 4 or 5, or the rule count.
pub fn checked(word: u64) -> Result<usize, Refusal> {
    let rules = (word >> 32) as usize;
    match refusal(word) {
        Some(refusal @ (Refusal::BookMalformed | Refusal::PrecedesCycle)) => Err(refusal),
        None if word as u32 == 0 && rules <= CHECK_OUTPUT => Ok(rules),
        _ => unknown(word),
    }
}

/// Where in the book the bytes of a rule stand: an empty part if there is no such rule.
pub fn place(word: u64) -> Range<usize> {
    let start = (word >> 32) as usize;
    let size = word as u32 as usize;
    start..start + size
}

/// The refusal, if there is one: all other bits are then 0.
fn refusal(word: u64) -> Option<Refusal> {
    match word {
        1 => Some(Refusal::OutputTooShort),
        2 => Some(Refusal::RoomTooShort),
        3 => Some(Refusal::ImageMalformed),
        4 => Some(Refusal::BookMalformed),
        5 => Some(Refusal::PrecedesCycle),
        6 => Some(Refusal::LogMalformed),
        _ if word & 0xff == 0 => None,
        _ => unknown(word),
    }
}

/// Proved never to happen with the library that this crate was written for.
fn unknown(word: u64) -> ! {
    panic!(
        "mordashun: the answer {word:#018x} has no meaning here: this crate and the library that it was \
         linked with do not belong together"
    )
}
