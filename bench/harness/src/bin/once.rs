//! Runs one side once on each input of a kind: what `bench/profile` looks at.
//!
//! Arguments: the kind (idle, mixed, chains, full), and the side (engine, or
//! opinion).

use harness::generate::{of_kind, Kind};
use harness::{engine, opinion, Input, OUTPUT, ROOM};
use std::env;
use std::hint::black_box;
use std::process::ExitCode;

const CORPUS: u64 = 60;

fn main() -> ExitCode {
    let words: Vec<String> = env::args().skip(1).collect();
    let words: Vec<&str> = words.iter().map(String::as_str).collect();
    let (kind, side) = match words[..] {
        [kind] => (kind, "engine"),
        [kind, side @ ("engine" | "opinion")] => (kind, side),
        _ => ("", ""),
    };
    let kind = match kind {
        "idle" => Kind::Idle,
        "mixed" => Kind::Mixed,
        "chains" => Kind::Chain,
        "full" => Kind::Full,
        _ => {
            eprintln!("usage: once idle|mixed|chains|full [engine|opinion]");
            return ExitCode::from(2);
        }
    };
    let corpus: Vec<Input> = (0..CORPUS).map(|seed| of_kind(kind, seed).into()).collect();
    let (mut out, mut room) = (vec![0; OUTPUT], vec![0; ROOM]);
    for input in &corpus {
        black_box(match side {
            "engine" => engine_run(input, &mut out, &mut room),
            _ => opinion_run(input, &mut out),
        });
    }
    println!("{CORPUS} runs");
    ExitCode::SUCCESS
}

// Names that a profiler can be told of.

#[no_mangle]
#[inline(never)]
extern "Rust" fn engine_run(input: &Input, out: &mut [u8], room: &mut [u8]) -> u64 {
    engine::run(input, out, room).0
}

#[no_mangle]
#[inline(never)]
extern "Rust" fn opinion_run(input: &Input, out: &mut [u8]) -> u64 {
    opinion::run(input, out).0
}
