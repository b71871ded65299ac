//! Mordashun: a small database with active rules, proved correct.
//!
//! One transaction at a time, an image, a rule book and a log come in; an outcome and an image come out. The
//! functions here call the proved library `libmordashun_c.a` and turn its answers into ordinary types. That the
//! library does what is said here is proved; this crate is not, and is kept small enough to read.
//!
//! ```
//! // an image with no rows and next handle 1, a book with no rules, a log with no operations
//! let image = [0, 0, 0, 7, 1, 0, 0, 0, 1, 0, 0];
//! let book = [0, 0, 0, 4, 1, 0, 1, 0];
//! let log = [0, 0, 0, 3, 1, 0, 0];
//! let ran = mordashun::run(&image, &book, &log).unwrap();
//! assert_eq!(ran.outcome, mordashun::Outcome::Commit);
//! assert_eq!(ran.image, image);
//! ```
#![deny(missing_docs)]

use std::error::Error;
use std::fmt;

mod c;
#[cfg(test)]
mod tests;
mod word;

/// A run is lent an output of at least so many bytes: the longest image.
pub const RUN_OUTPUT: usize = 1355;

/// A run is lent working room of at least so many bytes.
pub const RUN_ROOM: usize = 65536;

/// A book check is lent an output of at least so many bytes; no book has more rules.
const CHECK_OUTPUT: usize = 16;

/// Why a call was refused: the first that applies, in this order. A refused call changes nothing.
#[derive(Clone, Copy, Debug, PartialEq, Eq, Hash)]
pub enum Refusal {
    /// Refusal 1: the output is shorter than [`RUN_OUTPUT`].
    OutputTooShort = 1,
    /// Refusal 2: the working room is shorter than [`RUN_ROOM`].
    RoomTooShort = 2,
    /// Refusal 3.
    ImageMalformed = 3,
    /// Refusal 4.
    BookMalformed = 4,
    /// Refusal 5: the book's rules precede each other in a circle; inactive rules count.
    PrecedesCycle = 5,
    /// Refusal 6.
    LogMalformed = 6,
}

/// Why an operation of the log, or an action of a rule, failed.
#[derive(Clone, Copy, Debug, PartialEq, Eq, Hash)]
pub enum Reason {
    /// Reason 1: the log names a handle that no row has.
    NoSuchRow = 1,
    /// Reason 2: there would be more than 64 rows.
    Full = 2,
    /// Reason 3: the next handle would pass 4294967295.
    HandlesUsedUp = 3,
    /// Reason 4: a sum leaves signed 32 bits.
    SumOutOfRange = 4,
}

/// How a run ended. All but a commit hand back the start image.
#[derive(Clone, Copy, Debug, PartialEq, Eq, Hash)]
pub enum Outcome {
    /// Outcome 0: no rule is triggered any more.
    Commit,
    /// Outcome 1: an action of a rule rolled the transaction back.
    RolledBack,
    /// Outcome 2: a rule was triggered when the book's limit of considerations was reached.
    StepLimit,
    /// Outcome 3: an operation or an action failed.
    Failed(Reason),
}

/// What a run answers that was not refused.
#[derive(Clone, Debug, PartialEq, Eq)]
pub struct Ran {
    /// How it ended.
    pub outcome: Outcome,
    /// How many rules were considered: no more than the book allows, at most 1,000.
    pub considerations: u32,
    /// The bytes of the image that is handed back.
    pub image: Vec<u8>,
}

/// What a run in lent buffers answers that was not refused.
#[derive(Clone, Copy, Debug, PartialEq, Eq)]
pub struct RanIn<'a> {
    /// How it ended.
    pub outcome: Outcome,
    /// How many rules were considered: no more than the book allows, at most 1,000.
    pub considerations: u32,
    /// The image that is handed back, at the front of the lent output.
    pub image: &'a [u8],
}

/// A run, in buffers of its own: refusals 1 and 2 are never given.
pub fn run(image: &[u8], book: &[u8], log: &[u8]) -> Result<Ran, Refusal> {
    let mut out = vec![0; RUN_OUTPUT];
    let mut room = vec![0; RUN_ROOM];
    let RanIn {
        outcome,
        considerations,
        image,
    } = run_in(image, book, log, &mut out, &mut room)?;
    let length = image.len();
    out.truncate(length);
    Ok(Ran {
        outcome,
        considerations,
        image: out,
    })
}

/// A run in lent buffers, for those who run often: it allocates nothing. An output shorter than [`RUN_OUTPUT`]
/// and working room shorter than [`RUN_ROOM`] are refused. What the two hold makes no difference. A run that is
/// not refused leaves later bytes of the output as they were, and the first 65,536 bytes of the room 0.
pub fn run_in<'a>(
    image: &[u8],
    book: &[u8],
    log: &[u8],
    out: &'a mut [u8],
    room: &mut [u8],
) -> Result<RanIn<'a>, Refusal> {
    let word = c::run(image, book, log, out, room);
    let (outcome, considerations) = word::ran(word)?;
    Ok(RanIn {
        outcome,
        considerations,
        image: &out[..image_length(out)],
    })
}

/// The numbers of the book's rules in total order, inactive rules included; or refusal 4 or 5.
pub fn check(book: &[u8]) -> Result<Vec<u8>, Refusal> {
    let mut out = vec![0; CHECK_OUTPUT];
    let rules = word::checked(c::check(book, &mut out))?;
    out.truncate(rules);
    Ok(out)
}

/// The bytes of rule k as a part of the book: empty if the book has refusal 4 or 5 or there is no rule k.
pub fn rule(book: &[u8], k: usize) -> &[u8] {
    &book[word::place(c::rule(book, k))]
}

/// How long the image at the front of an output is: its first four bytes count those that follow them.
fn image_length(out: &[u8]) -> usize {
    4 + u32::from_be_bytes([out[0], out[1], out[2], out[3]]) as usize
}

impl Refusal {
    /// Its number, 1..6.
    pub fn number(self) -> u8 {
        self as u8
    }
}

impl Reason {
    /// Its number, 1..4.
    pub fn number(self) -> u8 {
        self as u8
    }
}

impl Outcome {
    /// Its number, 0..3.
    pub fn number(self) -> u8 {
        match self {
            Outcome::Commit => 0,
            Outcome::RolledBack => 1,
            Outcome::StepLimit => 2,
            Outcome::Failed(_) => 3,
        }
    }

    /// The number of its reason: 0 unless the outcome is 3.
    pub fn reason(self) -> u8 {
        match self {
            Outcome::Failed(reason) => reason.number(),
            _ => 0,
        }
    }
}

impl fmt::Display for Refusal {
    fn fmt(&self, f: &mut fmt::Formatter<'_>) -> fmt::Result {
        let why = match self {
            Refusal::OutputTooShort => "output too short",
            Refusal::RoomTooShort => "working room too short",
            Refusal::ImageMalformed => "image malformed",
            Refusal::BookMalformed => "book malformed",
            Refusal::PrecedesCycle => "precedes has a cycle",
            Refusal::LogMalformed => "log malformed",
        };
        write!(f, "refused {}: {why}", self.number())
    }
}

impl Error for Refusal {}
