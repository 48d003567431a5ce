//! The program `drawer` over a pipe: in one piece, in pieces of one byte, and in pieces that cut lines anywhere, it writes the same, and what
//! its files say. `tools/build drawer drawer_bad` builds it.

use std::fs;
use std::io::{Read, Write};
use std::path::{Path, PathBuf};
use std::process::{Command, Stdio};
use std::thread;

fn at_root(path: &str) -> PathBuf {
    Path::new(env!("CARGO_MANIFEST_DIR")).join("../..").join(path)
}

/// What the program writes for an input that comes in pieces of some bytes each, one write a piece.
fn answers(input: &[u8], piece: usize) -> Vec<u8> {
    let program = at_root("target/bin/drawer");
    let mut child = Command::new(&program)
        .stdin(Stdio::piped())
        .stdout(Stdio::piped())
        .spawn()
        .unwrap_or_else(|error| panic!("{}: {error}: run `tools/build drawer` first", program.display()));
    let mut stdout = child.stdout.take().expect("the output is piped");
    let reader = thread::spawn(move || {
        let mut written = Vec::new();
        stdout.read_to_end(&mut written).map(|_| written)
    });
    let mut stdin = child.stdin.take().expect("the input is piped");
    for part in input.chunks(piece) {
        stdin.write_all(part).expect("the program reads to the end");
    }
    drop(stdin);
    let written = reader.join().expect("the reader ends").expect("the output can be read");
    assert!(child.wait().expect("the program ends").success());
    written
}

fn told(name: &str) -> (Vec<u8>, Vec<u8>) {
    let read = |file| fs::read(at_root(&format!("crates/{name}/{file}"))).expect("the crate has its files");
    (read("stdin"), read("stdout"))
}

#[test]
fn the_sample_in_pieces_of_every_length() {
    let (input, output) = told("drawer");
    for piece in 1..=input.len() {
        assert_eq!(answers(&input, piece), output, "pieces of {piece} bytes");
    }
}

#[test]
fn bad_lines_byte_by_byte() {
    let (input, output) = told("drawer_bad");
    assert_eq!(answers(&input, 1), output);
}

#[test]
fn bad_lines_in_pieces_that_cut_lines() {
    let (input, output) = told("drawer_bad");
    for piece in [2, 3, 7, 1000, 4095, 4096, 4097, 65_535, 65_536, 65_537] {
        assert_eq!(answers(&input, piece), output, "pieces of {piece} bytes");
    }
}

#[test]
fn no_input_no_output() {
    assert_eq!(answers(b"", 1), b"");
}

#[test]
fn without_a_last_line_feed() {
    let (mut input, output) = told("drawer");
    assert_eq!(input.pop(), Some(b'\n'));
    assert_eq!(answers(&input, 1), output);
}
