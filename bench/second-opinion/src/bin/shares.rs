//! Prints how often each refusal, outcome and reason is reached over the
//! seeds from 0 up to a number given as argument, and the spread of what the
//! inputs put to the test.

use second_opinion::generate::{self, Kind};
use second_opinion::{program, run, Answer, IMAGE_MAX};
use std::collections::BTreeMap;
use std::env;

#[derive(Default)]
struct Tally(BTreeMap<String, u64>);

impl Tally {
    fn add(&mut self, what: impl Into<String>) {
        *self.0.entry(what.into()).or_default() += 1;
    }

    fn print(&self, title: &str, of: u64) {
        println!("{title}");
        for (what, times) in &self.0 {
            println!(
                "  {what:<44} {times:>9} {:>7.2}%",
                *times as f64 * 100.0 / of as f64
            );
        }
    }
}

fn length_class(count: u64) -> &'static str {
    match count {
        0 => "none",
        1 => "1",
        2..=9 => "2 to 9",
        10..=99 => "10 to 99",
        100..=499 => "100 to 499",
        500..=999 => "500 to 999",
        _ => "1000",
    }
}

/// Whether a whole input starts with an image of 64 rows, and how near its
/// next handle is to the end.
fn look_at_image(input: &[u8], tally: &mut Tally) {
    if let Some(front) = input.get(..11) {
        if front[..5] == [0, 0, 5, 71, 1] && front[9..11] == [0, 64] {
            tally.add("64 rows at the start");
        }
        let next = u32::from_be_bytes([front[5], front[6], front[7], front[8]]);
        if next > u32::MAX - 16 {
            tally.add("next handle within 16 of the end");
        }
    }
}

fn main() {
    let seeds: u64 = env::args()
        .nth(1)
        .map_or(Ok(10_000), |text| text.parse())
        .expect("a number");
    let mut answers = Tally::default();
    let mut lengths = Tally::default();
    let mut starts = Tally::default();
    let mut sizes = 0;
    for seed in 0..seeds {
        let input = generate::input(seed);
        sizes += input.len();
        let text = String::from_utf8(program(&input)).expect("plain text");
        let line = text.lines().next().expect("a line");
        let words: Vec<&str> = line.split(' ').collect();
        if words[0] == "refused" {
            answers.add(line);
            continue;
        }
        look_at_image(&input, &mut starts);
        answers.add(format!("outcome {} reason {}", words[0], words[1]));
        let count: u64 = words[2].parse().expect("a count");
        lengths.add(format!("outcome {}: {}", words[0], length_class(count)));
        if words[0] == "0" && words[4] == "64" {
            starts.add("64 rows at the end of a commit");
        }
        if words[3] == "4294967295" {
            starts.add("no handle left at the end");
        }
        if words[0] == "3" && count > 0 {
            starts.add(format!("failed in an action, reason {}", words[1]));
        }
    }
    answers.print("answers", seeds);
    lengths.print("considerations of accepted runs", seeds);
    starts.print("accepted runs with", seeds);
    println!("mean size {} bytes", sizes as u64 / seeds.max(1));

    let some = (seeds / 10).max(1);
    for kind in [Kind::Idle, Kind::Mixed, Kind::Chain, Kind::Full] {
        let mut tally = Tally::default();
        for seed in 0..some {
            let (image, book, log) = generate::of_kind(kind, seed);
            match run(&image, &book, &log, &mut [0; IMAGE_MAX]) {
                Answer::Refused(refusal) => tally.add(format!("refused {refusal}")),
                Answer::Ran { outcome, count, .. } => {
                    tally.add(format!("outcome {outcome}: {}", length_class(count.into())))
                }
            }
        }
        tally.print(&format!("kind {kind:?}"), some);
    }
}
