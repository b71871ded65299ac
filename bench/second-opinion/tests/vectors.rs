//! Compares the program with recorded inputs and outputs. The folder that
//! holds them (NNN.bin and NNN.txt) is named by the environment variable
//! VECTORS; without it there is nothing to compare.

use std::io::Write;
use std::path::{Path, PathBuf};
use std::process::{Command, Stdio};
use std::{env, fs};

fn recorded(folder: &Path) -> Vec<PathBuf> {
    let mut inputs: Vec<PathBuf> = fs::read_dir(folder)
        .expect("VECTORS names a folder")
        .map(|entry| entry.expect("the folder can be read").path())
        .filter(|path| path.extension().is_some_and(|extension| extension == "bin"))
        .collect();
    inputs.sort();
    assert!(!inputs.is_empty(), "the folder holds no inputs");
    inputs
}

fn printed(input: &[u8]) -> Vec<u8> {
    let mut child = Command::new(env!("CARGO_BIN_EXE_second-opinion"))
        .stdin(Stdio::piped())
        .stdout(Stdio::piped())
        .spawn()
        .expect("the program starts");
    // The program stops reading an input that is too long, so the write may
    // be broken off.
    let _ = child.stdin.take().expect("piped").write_all(input);
    let output = child.wait_with_output().expect("the program ends");
    assert!(output.status.success());
    output.stdout
}

#[test]
fn recorded_runs_agree() {
    let Some(folder) = env::var_os("VECTORS") else {
        eprintln!("VECTORS is not set: nothing compared");
        return;
    };
    let inputs = recorded(Path::new(&folder));
    let mut wrong = Vec::new();
    for path in &inputs {
        let input = fs::read(path).expect("an input");
        let wanted = fs::read(path.with_extension("txt")).expect("its output");
        if second_opinion::program(&input) != wanted || printed(&input) != wanted {
            wrong.push(path);
        }
    }
    assert!(
        wrong.is_empty(),
        "{} of {} differ: {wrong:?}",
        wrong.len(),
        inputs.len()
    );
    eprintln!("{} recorded runs agree", inputs.len());
}
