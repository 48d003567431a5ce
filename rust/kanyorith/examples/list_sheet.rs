//! Lists the points of a sheet: `list_sheet TRAY INDEX SHEET`, two files and the sheet as 12 hexadecimal digits.
//!
//! A line for each point: number, pixel column, pixel row, longitude and latitude in millionths of a degree. Any prefix of 2 to 16
//! digits lists the points whose keys begin with it. Ends with status 0 where the sheet is listed,
//! 1 where the library refuses, 2 where the words or a file are no use.
//!
//!     cargo run --example list_sheet -- kanyorith/examples/sample.tray kanyorith/examples/sample.index 000000000007

use std::env;
use std::error::Error;
use std::fs;
use std::io::{self, Write};
use std::process::ExitCode;

use kanyorith::{Reader, Refusal};

/// The bytes of hexadecimal digits.
fn bytes(digits: &str) -> Option<Vec<u8>> {
    let digits: Vec<u8> = digits.chars().map(|digit| Some(digit.to_digit(16)? as u8)).collect::<Option<_>>()?;
    let (pairs, rest) = digits.as_chunks();
    rest.is_empty().then(|| pairs.iter().map(|[high, low]| 16 * high + low).collect())
}

fn list(tray: &str, index: &str, sheet: &str) -> Result<(), Box<dyn Error>> {
    let sheet = bytes(sheet).ok_or("the sheet is not an even number of hexadecimal digits")?;
    let tray = fs::read(tray).map_err(|error| format!("{tray}: {error}"))?;
    let index = fs::read(index).map_err(|error| format!("{index}: {error}"))?;
    let reader = Reader::open(&tray, &index)?;
    let mut out = io::stdout().lock();
    for point in reader.prefix(&sheet)? {
        let point = point?;
        let (number, column, row) = (point.number(), point.column(), point.row());
        writeln!(out, "{number} {column} {row} {} {}", point.longitude(), point.latitude())?;
    }
    Ok(())
}

fn main() -> ExitCode {
    let words: Vec<String> = env::args().skip(1).collect();
    let [tray, index, sheet] = words.as_slice() else {
        eprintln!("usage: list_sheet TRAY INDEX SHEET");
        return ExitCode::from(2);
    };
    let Err(error) = list(tray, index, sheet) else {
        return ExitCode::SUCCESS;
    };
    eprintln!("list_sheet: {error}");
    ExitCode::from(if error.is::<Refusal>() { 1 } else { 2 })
}
