//! Judges an index: `judge_index TRAY INDEX`, two files. Says how many segments an accepted index has, or why it is refused.
//!
//! Ends with status 0 where the index is accepted, 1 where it is refused, 2 where the words or a file are no use.
//!
//!     cargo run --example judge_index -- kanyorith/examples/sample.tray kanyorith/examples/sample.index

use std::process::ExitCode;
use std::{env, fs, io};

use kanyorith::{Reader, Refusal};

/// What is judged: the bytes of a file.
fn read(path: &str) -> io::Result<Vec<u8>> {
    fs::read(path).inspect_err(|error| eprintln!("judge_index: {path}: {error}"))
}

fn judge(tray: &[u8], index: &[u8]) -> Result<u64, Refusal> {
    Reader::open(tray, index)?.check()
}

fn main() -> ExitCode {
    let words: Vec<String> = env::args().skip(1).collect();
    let [tray, index] = words.as_slice() else {
        eprintln!("usage: judge_index TRAY INDEX");
        return ExitCode::from(2);
    };
    let (Ok(tray), Ok(index)) = (read(tray), read(index)) else {
        return ExitCode::from(2);
    };
    match judge(&tray, &index) {
        Ok(segments) => {
            println!("accepted: {segments} {}", if segments == 1 { "segment" } else { "segments" });
            ExitCode::SUCCESS
        }
        Err(refusal) => {
            println!("refused by {}: {refusal}", refusal.number());
            ExitCode::FAILURE
        }
    }
}
