//! The second opinion, in the engine's form.

use crate::{Input, Place, Word};
use second_opinion::Answer;

pub fn run(input: &Input, out: &mut [u8]) -> Word {
    match second_opinion::run(&input.image, &input.book, &input.log, out) {
        Answer::Refused(refusal) => Word::refused(refusal),
        Answer::Ran {
            outcome,
            reason,
            count,
            ..
        } => Word::ran(outcome, reason, count),
    }
}

pub fn check(book: &[u8], out: &mut [u8]) -> Word {
    match second_opinion::check_book(book, out) {
        Ok(rules) => Word::ran(0, 0, rules as u32),
        Err(refusal) => Word::refused(refusal),
    }
}

pub fn rule(book: &[u8], k: usize) -> Place {
    let part = second_opinion::rule_bytes(book, k);
    let at = match part.is_empty() {
        true => 0,
        false => part.as_ptr() as usize - book.as_ptr() as usize,
    };
    at..at + part.len()
}
