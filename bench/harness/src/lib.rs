//! The proved engine and the second opinion behind the same three calls, with
//! the same answer word. Everything above speaks of both in this form.

pub mod engine;
pub mod opinion;

pub use second_opinion::generate;
use std::fmt;
use std::ops::Range;

/// The least output of a run, the least working room, and the least output of
/// a book check.
pub const OUTPUT: usize = 1_355;
pub const ROOM: usize = 65_536;
pub const CHECK: usize = 16;

/// An answer as one word: refusal in bits 0..7, outcome in 8..15, reason in
/// 16..23, and in 32..63 the considerations of a run or the rules of a book.
#[derive(Debug, Clone, Copy, PartialEq, Eq)]
pub struct Word(pub u64);

impl fmt::Display for Word {
    fn fmt(&self, to: &mut fmt::Formatter) -> fmt::Result {
        if self.refusal() != 0 {
            write!(to, "refused {}", self.refusal())?;
        } else {
            let (outcome, reason) = (self.outcome(), self.reason());
            let count = self.count();
            write!(to, "outcome {outcome}, reason {reason}, count {count}")?;
        }
        write!(to, " ({:#x})", self.0)
    }
}

impl Word {
    pub fn refused(refusal: u8) -> Self {
        Word(refusal.into())
    }

    pub fn ran(outcome: u8, reason: u8, count: u32) -> Self {
        Word(u64::from(outcome) << 8 | u64::from(reason) << 16 | u64::from(count) << 32)
    }

    pub fn refusal(self) -> u8 {
        self.0 as u8
    }

    pub fn outcome(self) -> u8 {
        (self.0 >> 8) as u8
    }

    pub fn reason(self) -> u8 {
        (self.0 >> 16) as u8
    }

    pub fn count(self) -> u32 {
        (self.0 >> 32) as u32
    }
}

/// Image, book and log.
pub struct Input {
    pub image: Vec<u8>,
    pub book: Vec<u8>,
    pub log: Vec<u8>,
}

impl From<generate::Parts> for Input {
    fn from((image, book, log): generate::Parts) -> Self {
        Input { image, book, log }
    }
}

/// A part of a book.
pub type Place = Range<usize>;
