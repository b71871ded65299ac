//! The deepest stack of a run of the proved engine, measured: each run has a
//! stack of its own, painted before and looked at after.

use harness::generate::{self, Kind};
use harness::{engine, Input, OUTPUT, ROOM};

const STACK: usize = 1 << 18;
/// What the stack is painted with, place by place.
const PERIOD: usize = 253;

/// Inputs of each kind, and of the general generator.
const CORPUS: u64 = 400;
const GENERAL: u64 = 4_000;

struct Painted {
    stack: Vec<u8>,
    out: Vec<u8>,
    room: Vec<u8>,
}

impl Painted {
    fn new() -> Self {
        Painted {
            stack: paint().collect(),
            out: vec![0; OUTPUT],
            room: vec![0; ROOM],
        }
    }

    /// The most that a run on one of the inputs took of its stack, in bytes.
    fn deepest(&mut self, inputs: impl Iterator<Item = Input>) -> usize {
        let Painted { stack, out, room } = self;
        stack
            .iter_mut()
            .zip(paint())
            .for_each(|(byte, new)| *byte = new);
        for input in inputs {
            engine::run_on(stack, &input, out, room);
        }
        let untouched = stack
            .iter()
            .zip(paint())
            .take_while(|(byte, old)| *byte == old);
        let top = stack.as_ptr_range().end as usize & !15;
        top - (stack.as_ptr() as usize + untouched.count())
    }
}

fn paint() -> impl Iterator<Item = u8> {
    (0..STACK).map(|at| (at % PERIOD) as u8 ^ 0xA5)
}

fn main() {
    let mut painted = Painted::new();
    let mut most = 0;
    println!("deepest stack of a run, in bytes");
    for (kind, name) in [
        (Kind::Idle, "idle"),
        (Kind::Mixed, "mixed"),
        (Kind::Chain, "long chains"),
        (Kind::Full, "full images with matches"),
    ] {
        let inputs = (0..CORPUS).map(|seed| generate::of_kind(kind, seed).into());
        let deep = painted.deepest(inputs);
        println!("  {name:<26} {CORPUS:>6} inputs {deep:>7}");
        most = most.max(deep);
    }
    let inputs = (0..GENERAL).map(|seed| generate::parts(seed).into());
    let deep = painted.deepest(inputs);
    println!(
        "  {:<26} {GENERAL:>6} inputs {deep:>7}",
        "all sorts, damaged too"
    );
    println!("most {}", most.max(deep));
}
