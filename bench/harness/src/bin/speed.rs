//! Times the proved engine and the second opinion on the same inputs, in one
//! process, turn and turn about. Processor time is counted, so that other
//! programs on the machine disturb it little.
//!
//! Arguments: how many rounds (21 if there is none).

use harness::generate::{of_kind, Kind};
use harness::{engine, opinion, Input, OUTPUT, ROOM};
use std::hint::black_box;
use std::{env, fs};

/// Inputs of each kind.
const CORPUS: u64 = 300;
const ROUNDS: usize = 21;

/// What is lent to both; not cleared between runs.
struct Buffers {
    out: Vec<u8>,
    room: Vec<u8>,
}

/// As C has it on x86-64 Linux.
#[repr(C)]
struct Time {
    seconds: i64,
    nanoseconds: i64,
}

extern "C" {
    fn clock_gettime(clock: i32, time: *mut Time) -> i32;
}

/// The clock of the processor time that this process has had.
const PROCESS_TIME: i32 = 2;

/// Nanoseconds of processor time up to now.
fn now() -> i64 {
    let mut time = Time {
        seconds: 0,
        nanoseconds: 0,
    };
    let failed = unsafe { clock_gettime(PROCESS_TIME, &mut time) };
    assert_eq!(failed, 0, "no clock of processor time");
    time.seconds * 1_000_000_000 + time.nanoseconds
}

/// Nanoseconds a run, over the whole corpus.
fn timed(corpus: &[Input], mut run: impl FnMut(&Input) -> u64) -> f64 {
    let start = now();
    for input in corpus {
        black_box(run(black_box(input)));
    }
    (now() - start) as f64 / corpus.len() as f64
}

fn time_engine(corpus: &[Input], buffers: &mut Buffers) -> f64 {
    let Buffers { out, room } = buffers;
    timed(corpus, |input| engine::run(input, out, room).0)
}

fn time_opinion(corpus: &[Input], buffers: &mut Buffers) -> f64 {
    let out = &mut buffers.out;
    timed(corpus, |input| opinion::run(input, out).0)
}

fn median(times: &mut [f64]) -> f64 {
    times.sort_by(f64::total_cmp);
    times[times.len() / 2]
}

/// Considerations a run; both must answer the same.
fn considerations(corpus: &[Input], buffers: &mut Buffers) -> f64 {
    let mut considerations = 0;
    for input in corpus {
        let word = engine::run(input, &mut buffers.out, &mut buffers.room);
        assert_eq!(
            word,
            opinion::run(input, &mut buffers.out),
            "answers differ"
        );
        considerations += u64::from(word.count());
    }
    considerations as f64 / corpus.len() as f64
}

fn measure(kind: Kind, name: &str, rounds: usize, buffers: &mut Buffers) {
    let corpus: Vec<Input> = (0..CORPUS).map(|seed| of_kind(kind, seed).into()).collect();
    let considerations = considerations(&corpus, buffers);
    let (mut engine, mut opinion, mut ratio) = (Vec::new(), Vec::new(), Vec::new());
    for round in 0..rounds {
        let (one, other);
        if round % 2 == 0 {
            one = time_engine(&corpus, buffers);
            other = time_opinion(&corpus, buffers);
        } else {
            other = time_opinion(&corpus, buffers);
            one = time_engine(&corpus, buffers);
        }
        engine.push(one);
        opinion.push(other);
        ratio.push(one / other);
    }
    let (engine, opinion) = (median(&mut engine), median(&mut opinion));
    let ratio = median(&mut ratio);
    println!("{name:<26} {considerations:>14.1} {engine:>10.0} {opinion:>14.0} {ratio:>8.2}");
}

fn load() -> String {
    fs::read_to_string("/proc/loadavg").unwrap_or_default()
}

fn main() {
    let rounds = env::args()
        .nth(1)
        .map_or(Ok(ROUNDS), |word| word.parse())
        .expect("the number of rounds");
    let mut buffers = Buffers {
        out: vec![0; OUTPUT],
        room: vec![0; ROOM],
    };
    println!("{CORPUS} inputs of each kind, median of {rounds} rounds, nanoseconds a run");
    println!("load at the start {}", load().trim());
    println!(
        "{:<26} {:>14} {:>10} {:>14} {:>8}",
        "kind", "considerations", "engine", "second opinion", "ratio"
    );
    for (kind, name) in [
        (Kind::Idle, "idle"),
        (Kind::Mixed, "mixed"),
        (Kind::Chain, "long chains"),
        (Kind::Full, "full images with matches"),
    ] {
        measure(kind, name, rounds, &mut buffers);
    }
    println!("load at the end {}", load().trim());
}
