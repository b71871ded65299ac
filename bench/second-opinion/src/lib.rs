//! A small active database, written from its specification as a second
//! reading of it: one transaction over four tables, with set-oriented rules.
//!
//! The run is kept as a history of row operations. Each rule remembers where
//! in that history it was last considered; what waits for it is the net effect
//! of everything after that place, worked out when it is asked for.

mod engine;
pub mod generate;
mod layout;

use layout::{parse_book, parse_image, parse_log, Book};
use std::fmt::Write;

/// The longest image, and so the least output a run may be lent.
pub const IMAGE_MAX: usize = 1_355;
/// The most rules a book can hold, and so the least output of a book check.
pub const RULES_MAX: usize = 16;
/// The longest input the program takes.
pub const INPUT_MAX: usize = 16_384;

const OUTPUT_TOO_SHORT: u8 = 1;
const IMAGE_MALFORMED: u8 = 3;
const BOOK_MALFORMED: u8 = 4;
const CYCLE: u8 = 5;
const LOG_MALFORMED: u8 = 6;
const INPUT_TOO_LONG: u8 = 7;

/// What a run says, in the numbers of the specification.
#[derive(Debug, Clone, Copy, PartialEq, Eq)]
pub enum Answer {
    Refused(u8),
    Ran {
        outcome: u8,
        reason: u8,
        count: u32,
        /// How many bytes of the output the image takes.
        written: usize,
    },
}

/// Runs one transaction. The image stands at the front of `out`; later bytes,
/// and all bytes after a refusal, are left as they were.
pub fn run(image: &[u8], book: &[u8], log: &[u8], out: &mut [u8]) -> Answer {
    match try_run(image, book, log, out) {
        Ok(answer) => answer,
        Err(refusal) => Answer::Refused(refusal),
    }
}

fn try_run(image: &[u8], book: &[u8], log: &[u8], out: &mut [u8]) -> Result<Answer, u8> {
    if out.len() < IMAGE_MAX {
        return Err(OUTPUT_TOO_SHORT);
    }
    let start = parse_image(image).ok_or(IMAGE_MALFORMED)?;
    let (book, order) = ordered_book(book)?;
    let operations = parse_log(log).ok_or(LOG_MALFORMED)?;

    let verdict = engine::transaction(start, &book, &order, &operations);
    let written = match &verdict.committed {
        Some(end) => end.write(out),
        // An image has only one spelling, so the start image is the input.
        None => {
            out[..image.len()].copy_from_slice(image);
            image.len()
        }
    };
    Ok(Answer::Ran {
        outcome: verdict.outcome,
        reason: verdict.reason,
        count: verdict.count,
        written,
    })
}

/// Checks a book and writes its rules' numbers in total order, one byte each.
/// Gives the number of rules, or the refusal.
pub fn check_book(book: &[u8], out: &mut [u8]) -> Result<usize, u8> {
    if out.len() < RULES_MAX {
        return Err(OUTPUT_TOO_SHORT);
    }
    let (_, order) = ordered_book(book)?;
    for (place, &rule) in out.iter_mut().zip(&order) {
        *place = rule as u8;
    }
    Ok(order.len())
}

/// The bytes of rule `k`, as a part of `book`; empty if the book would be
/// refused or has no such rule.
pub fn rule_bytes(book: &[u8], k: usize) -> &[u8] {
    match ordered_book(book) {
        Ok((parsed, _)) if k < parsed.rules.len() => &book[parsed.rules[k].place.clone()],
        _ => &[],
    }
}

fn ordered_book(bytes: &[u8]) -> Result<(Book, Vec<usize>), u8> {
    let book = parse_book(bytes).ok_or(BOOK_MALFORMED)?;
    let order = engine::total_order(&book.rules).ok_or(CYCLE)?;
    Ok((book, order))
}

/// What the program prints for the whole of its standard input.
pub fn program(input: &[u8]) -> Vec<u8> {
    if input.len() > INPUT_MAX {
        return refused(INPUT_TOO_LONG);
    }
    let (image, rest) = cut(input);
    let (book, log) = cut(rest);
    let mut out = [0; IMAGE_MAX];
    match run(image, book, log, &mut out) {
        Answer::Refused(refusal) => refused(refusal),
        Answer::Ran {
            outcome,
            reason,
            count,
            written,
        } => {
            let end = parse_image(&out[..written]).expect("a run writes a well-formed image");
            let rows = end.rows();
            let mut text = String::new();
            writeln!(
                text,
                "{outcome} {reason} {count} {} {}",
                end.next,
                rows.len()
            )
            .unwrap();
            for (handle, (table, [a, b, c, d])) in rows {
                writeln!(text, "{handle} {table} {a} {b} {c} {d}").unwrap();
            }
            text.into_bytes()
        }
    }
}

fn refused(refusal: u8) -> Vec<u8> {
    format!("refused {refusal}\n").into_bytes()
}

/// Cuts a part off by its length field. A part whose length cannot be read, or
/// passes what is left, takes all that is left.
fn cut(input: &[u8]) -> (&[u8], &[u8]) {
    let size = match input.first_chunk::<4>() {
        Some(&length) => 4 + u64::from(u32::from_be_bytes(length)),
        None => u64::MAX,
    };
    match usize::try_from(size) {
        Ok(size) if size <= input.len() => input.split_at(size),
        _ => (input, &[]),
    }
}
