//! Runs the proved engine and the second opinion on the same generated inputs
//! and compares all that each says and writes.
//!
//! Arguments: how many inputs, and the first seed (0 if there is none).

use harness::generate;
use harness::{engine, opinion, Input, Word, CHECK, OUTPUT, ROOM};
use std::env;
use std::process::ExitCode;
use std::time::Instant;

/// Bytes after what is lent; they must stay as they are.
const AFTER: usize = 64;
const MORE: usize = 16;

/// The pattern repeats after so many bytes, and has no zero in it.
const PERIOD: usize = 251;

/// Rule numbers that are asked for: all that a book can have, and one more.
const ASKED: usize = 17;

const FULL: usize = 64;
const LAST_HANDLE: u32 = u32::MAX;

/// How much a call is lent. Now and then it is too little.
struct Lent {
    out: usize,
    room: usize,
    check: usize,
}

impl Lent {
    fn of(seed: u64) -> Self {
        let drawn = (seed ^ 0x6C65_6E74).wrapping_mul(0x9E37_79B9_7F4A_7C15) >> 20;
        let more = (drawn >> 16) as usize % (MORE + 1);
        let less = [1, 2, 40, 1 << 16][(drawn >> 32) as usize % 4];
        let size = |rare: u64, enough: usize| match (drawn >> rare) % 128 {
            0 => enough.saturating_sub(less),
            _ => enough + more,
        };
        Lent {
            out: size(0, OUTPUT),
            room: size(4, ROOM),
            check: size(8, CHECK),
        }
    }
}

/// What is lent, filled with a pattern before each input.
struct Buffers {
    pattern: Vec<u8>,
    zeros: Vec<u8>,
    out: Vec<u8>,
    other_out: Vec<u8>,
    room: Vec<u8>,
    check: Vec<u8>,
    other_check: Vec<u8>,
}

impl Buffers {
    fn new() -> Self {
        let size = ROOM + MORE + AFTER;
        let pattern = (0..size + PERIOD).map(|at| (at % PERIOD) as u8 + 1);
        Buffers {
            pattern: pattern.collect(),
            zeros: vec![0; ROOM],
            out: vec![0; OUTPUT + MORE + AFTER],
            other_out: vec![0; OUTPUT + MORE + AFTER],
            room: vec![0; size],
            check: vec![0; CHECK + MORE + AFTER],
            other_check: vec![0; CHECK + MORE + AFTER],
        }
    }

    /// The pattern starts elsewhere for another seed.
    fn fill(&mut self, seed: u64) {
        let start = seed as usize % PERIOD;
        for buffer in [
            &mut self.out,
            &mut self.other_out,
            &mut self.room,
            &mut self.check,
            &mut self.other_check,
        ] {
            let end = start + buffer.len();
            buffer.copy_from_slice(&self.pattern[start..end]);
        }
    }

    /// Whether the room is as a call with this answer must leave it.
    fn room_is_right(&self, seed: u64, word: Word) -> bool {
        let cleared = if word.refusal() == 0 { ROOM } else { 0 };
        let start = seed as usize % PERIOD;
        let untouched = &self.pattern[start + cleared..start + self.room.len()];
        self.room[..cleared] == self.zeros[..cleared] && self.room[cleared..] == *untouched
    }
}

/// How many inputs reached what.
#[derive(Default)]
struct Tally {
    inputs: u64,
    refusals: [u64; 8],
    outcomes: [u64; 4],
    reasons: [u64; 5],
    considerations: u64,
    chains: u64,
    full_start: u64,
    full_end: u64,
    used_up: u64,
    rules: u64,
    differ: u64,
}

impl Tally {
    fn add(&mut self, input: &Input, word: Word, out: &[u8]) {
        self.inputs += 1;
        if word.refusal() != 0 {
            self.refusals[usize::from(word.refusal()).min(7)] += 1;
            return;
        }
        self.outcomes[usize::from(word.outcome()).min(3)] += 1;
        self.reasons[usize::from(word.reason()).min(4)] += 1;
        self.considerations += u64::from(word.count());
        self.chains += u64::from(word.count() >= 100);
        self.full_start += u64::from(rows_of(&input.image) == FULL);
        self.full_end += u64::from(rows_of(out) == FULL);
        self.used_up += u64::from(next_of(out) == LAST_HANDLE);
    }

    fn print(&self) {
        let line = |what: &str, times: u64| {
            let share = times as f64 * 100.0 / self.inputs.max(1) as f64;
            println!("  {what:<42} {times:>9} {share:>7.3}%");
        };
        for refusal in 1..=6 {
            line(&format!("refused {refusal}"), self.refusals[refusal]);
        }
        for (outcome, &times) in self.outcomes.iter().enumerate() {
            line(&format!("outcome {outcome}"), times);
        }
        for (reason, &times) in self.reasons.iter().enumerate().skip(1) {
            line(&format!("outcome 3, reason {reason}"), times);
        }
        line("chains of 100 considerations and more", self.chains);
        line("accepted, 64 rows in the start image", self.full_start);
        line("accepted, 64 rows in the output image", self.full_end);
        line("accepted, handles used up at the end", self.used_up);
        println!("  considerations in all {}", self.considerations);
        println!("  rules whose bytes were compared {}", self.rules);
    }
}

fn next_of(image: &[u8]) -> u32 {
    u32::from_be_bytes([image[5], image[6], image[7], image[8]])
}

fn rows_of(image: &[u8]) -> usize {
    usize::from(u16::from_be_bytes([image[9], image[10]]))
}

/// Even seeds give the three parts as they were made or damaged. Odd seeds
/// give a whole standard input, cut as the program cuts it.
fn input_of(seed: u64) -> Input {
    if seed.is_multiple_of(2) {
        return generate::parts(seed).into();
    }
    let whole = generate::input(seed);
    let (image, rest) = cut(&whole);
    let (book, log) = cut(rest);
    Input {
        image: image.to_vec(),
        book: book.to_vec(),
        log: log.to_vec(),
    }
}

/// A part is cut by its length, or takes all that is left.
fn cut(bytes: &[u8]) -> (&[u8], &[u8]) {
    let Some(length) = bytes.first_chunk::<4>() else {
        return (bytes, &[]);
    };
    let size = 4 + u32::from_be_bytes(*length) as usize;
    bytes.split_at(size.min(bytes.len()))
}

/// What the second opinion says of a run. It has no working room, so that
/// refusal is worked out here, in its place in the order.
fn wanted_run(input: &Input, lent: &Lent, out: &mut [u8]) -> Word {
    if lent.out >= OUTPUT && lent.room < ROOM {
        return Word::refused(2);
    }
    opinion::run(input, out)
}

/// Compares both on one input; what differs first, if anything does.
fn compare(seed: u64, input: &Input, buffers: &mut Buffers, tally: &mut Tally) -> Option<String> {
    let lent = Lent::of(seed);
    buffers.fill(seed);

    let wanted = wanted_run(input, &lent, &mut buffers.other_out[..lent.out]);
    let word = engine::run(
        input,
        &mut buffers.out[..lent.out],
        &mut buffers.room[..lent.room],
    );
    tally.add(input, wanted, &buffers.other_out);
    if word != wanted {
        return Some(format!(
            "answer: engine {word:?}, second opinion {wanted:?}"
        ));
    }
    if let Some(what) = first_difference(&buffers.out, &buffers.other_out) {
        return Some(format!("output: {what}"));
    }
    if !buffers.room_is_right(seed, word) {
        return Some("working room: not as this answer leaves it".to_string());
    }

    let wanted = opinion::check(&input.book, &mut buffers.other_check[..lent.check]);
    let word = engine::check(&input.book, &mut buffers.check[..lent.check]);
    if word != wanted {
        return Some(format!(
            "book check: engine {word}, second opinion {wanted}"
        ));
    }
    if let Some(what) = first_difference(&buffers.check, &buffers.other_check) {
        return Some(format!("output of the book check: {what}"));
    }
    for k in 0..ASKED {
        let wanted = opinion::rule(&input.book, k);
        let place = engine::rule(&input.book, k);
        if place != wanted {
            return Some(format!(
                "rule {k}: engine {place:?}, second opinion {wanted:?}"
            ));
        }
        tally.rules += u64::from(!wanted.is_empty());
    }
    None
}

fn first_difference(a: &[u8], b: &[u8]) -> Option<String> {
    if a == b {
        return None;
    }
    let at = a.iter().zip(b).position(|(x, y)| x != y)?;
    Some(format!(
        "byte {at}: engine {:02X}, second opinion {:02X}",
        a[at], b[at]
    ))
}

fn hex(bytes: &[u8]) -> String {
    bytes.iter().map(|byte| format!("{byte:02X}")).collect()
}

fn main() -> ExitCode {
    let numbers: Option<Vec<u64>> = env::args().skip(1).map(|word| word.parse().ok()).collect();
    let (inputs, first_seed) = match numbers.as_deref() {
        Some(&[inputs]) => (inputs, 0),
        Some(&[inputs, first_seed]) => (inputs, first_seed),
        _ => {
            eprintln!("usage: compare N [SEED]");
            return ExitCode::from(2);
        }
    };
    let start = Instant::now();
    let mut buffers = Buffers::new();
    let mut tally = Tally::default();
    let mut first = None;
    for seed in first_seed..first_seed.saturating_add(inputs) {
        let input = input_of(seed);
        if let Some(what) = compare(seed, &input, &mut buffers, &mut tally) {
            tally.differ += 1;
            first.get_or_insert((seed, what, input));
        }
    }
    println!(
        "{inputs} inputs from seed {first_seed}, {} differ, {:.1} s",
        tally.differ,
        start.elapsed().as_secs_f64()
    );
    tally.print();
    let Some((seed, what, input)) = first else {
        return ExitCode::SUCCESS;
    };
    println!("first that differs: seed {seed}, {what}");
    println!("  image {}", hex(&input.image));
    println!("  book  {}", hex(&input.book));
    println!("  log   {}", hex(&input.log));
    ExitCode::FAILURE
}
