//! Runs a file that holds image, book and log one after another (case O of document 01, if none is named), and
//! prints what the program `mordashun` prints for it; then the bytes of the book's first rule.
use std::env;
use std::fs;
use std::path::Path;

/// Length (4), version (1), next handle (4), row count (2); then rows.
const FIRST_ROW: usize = 11;

/// Handle (4), table (1), four values (4 each).
const ROW: usize = 21;

/// No longer input is accepted.
const MOST: usize = 16384;

fn number32(s: &[u8]) -> u32 {
    u32::from_be_bytes([s[0], s[1], s[2], s[3]])
}

/// The part at the front, as its length says or else all that is left; and what follows it.
fn part(s: &[u8]) -> (&[u8], &[u8]) {
    let left = s.len();
    let length = if left < 4 {
        left
    } else {
        left.min(4 + number32(s) as usize)
    };
    s.split_at(length)
}

fn print_rows(image: &[u8]) {
    for row in image[FIRST_ROW..].chunks(ROW) {
        print!("{} {}", number32(row), row[4]);
        for value in row[5..].chunks(4) {
            print!(" {}", number32(value) as i32);
        }
        println!();
    }
}

fn main() {
    let case_o = Path::new(env!("CARGO_MANIFEST_DIR")).join("../../examples/case-o.bin");
    let path = env::args_os().nth(1).map_or(case_o, Into::into);
    let input = fs::read(&path).unwrap_or_else(|e| panic!("{}: {e}", path.display()));
    if input.len() > MOST {
        println!("refused 7");
        return;
    }
    let (image, rest) = part(&input);
    let (book, log) = part(rest);
    match mordashun::run(image, book, log) {
        Ok(ran) => {
            let next = number32(&ran.image[5..]);
            let rows = (ran.image.len() - FIRST_ROW) / ROW;
            let outcome = ran.outcome;
            println!(
                "{} {} {} {next} {rows}",
                outcome.number(),
                outcome.reason(),
                ran.considerations
            );
            print_rows(&ran.image);
        }
        Err(refusal) => println!("refused {}", refusal.number()),
    }
    let rule = mordashun::rule(book, 0);
    print!("rule 0: {} bytes of the book:", rule.len());
    for byte in rule {
        print!(" {byte:02X}");
    }
    println!();
}
