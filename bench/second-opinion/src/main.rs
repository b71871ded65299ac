//! Reads image, book and log from standard input and prints what became of
//! the transaction.

use std::io::{self, Read, Write};

fn main() -> io::Result<()> {
    let mut input = Vec::new();
    // One byte past the limit is enough to know that the input passes it.
    io::stdin()
        .lock()
        .take(second_opinion::INPUT_MAX as u64 + 1)
        .read_to_end(&mut input)?;
    io::stdout()
        .lock()
        .write_all(&second_opinion::program(&input))
}
