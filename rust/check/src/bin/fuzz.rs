//! Drives `fuzz::step` for a number of seconds: `fuzz SECONDS SEED CORPUS`, or `fuzz --collect SECONDS SEED CORPUS`.
//!
//! Inputs are drawn at random, or mutated from those of the corpus and from those that ran before. At the first input on which library
//! and twin disagree it writes the input to the corpus, where the tests run it from then on, and ends with status 1. With `--collect`
//! it also writes the shortest input that it met for each call and number, which is how the corpus is made.

use std::collections::BTreeMap;
use std::error::Error;
use std::panic;
use std::path::{Path, PathBuf};
use std::process::ExitCode;
use std::time::{Duration, Instant};
use std::{env, fs};

use kanyorith_check::fuzz::step;
use kanyorith_check::samples::{Draw, Rng};

/// How many inputs are kept to mutate, and how long one may grow.
const KEPT: usize = 512;
const LONGEST: usize = 2048;

struct Arguments {
    collect: bool,
    seconds: u64,
    seed: u64,
    corpus: PathBuf,
}

fn arguments() -> Option<Arguments> {
    let mut words: Vec<String> = env::args().skip(1).collect();
    let collect = words.first().is_some_and(|word| word == "--collect");
    if collect {
        words.remove(0);
    }
    let [seconds, seed, corpus] = words.as_slice() else {
        return None;
    };
    Some(Arguments { collect, seconds: seconds.parse().ok()?, seed: seed.parse().ok()?, corpus: corpus.into() })
}

/// The files of the corpus in the order of their names, so that a seed gives the same inputs everywhere.
fn load(corpus: &Path) -> Result<Vec<Vec<u8>>, Box<dyn Error>> {
    let mut paths = Vec::new();
    for entry in fs::read_dir(corpus)? {
        paths.push(entry?.path());
    }
    paths.sort();
    paths.iter().map(|path| Ok(fs::read(path)?)).collect()
}

/// An input at random, or one of the kept ones with a few changes.
fn draw(rng: &mut Rng, kept: &[Vec<u8>]) -> Vec<u8> {
    if kept.is_empty() || rng.chance(20) {
        let length = rng.below(LONGEST);
        return (0..length).map(|_| rng.byte()).collect();
    }
    let mut data = kept[rng.below(kept.len())].clone();
    for _ in 0..1 + rng.below(6) {
        mutate(rng, &mut data, kept);
    }
    data.truncate(LONGEST);
    data
}

fn mutate(rng: &mut Rng, data: &mut Vec<u8>, kept: &[Vec<u8>]) {
    let at = rng.below(data.len() + 1);
    match rng.below(6) {
        0 => data.insert(at, rng.byte()),
        1 => data.truncate(at),
        2 => {
            // The front of one input and the back of another.
            let other = &kept[rng.below(kept.len())];
            data.truncate(at);
            data.extend(other.iter().skip(at));
        }
        3 => {
            let more = rng.below(64);
            data.extend((0..more).map(|_| rng.byte()));
        }
        _ => {
            if let Some(byte) = data.get_mut(at) {
                *byte = if rng.chance(50) { rng.byte() } else { *byte ^ (1 << rng.below(8)) };
            }
        }
    }
}

/// Keeps an input to mutate, in the place of another once there are enough.
fn keep(rng: &mut Rng, kept: &mut Vec<Vec<u8>>, data: Vec<u8>) {
    if kept.len() < KEPT {
        kept.push(data);
    } else if rng.chance(5) {
        let at = rng.below(KEPT);
        kept[at] = data;
    }
}

/// The shortest inputs by call and number.
type Shortest = BTreeMap<(&'static str, u32), Vec<u8>>;

fn note(shortest: &mut Shortest, outcome: (&'static str, u32), data: &[u8]) {
    let held = shortest.entry(outcome).or_insert_with(|| data.to_vec());
    if data.len() < held.len() {
        *held = data.to_vec();
    }
}

/// How many inputs were tried until the time was over, all without a disagreement.
fn drive(arguments: &Arguments) -> Result<u64, Box<dyn Error>> {
    let mut kept = load(&arguments.corpus)?;
    let mut rng = Rng::new(arguments.seed);
    let mut shortest = Shortest::new();
    let until = Instant::now() + Duration::from_secs(arguments.seconds);
    let mut tried = 0;
    while Instant::now() < until {
        let data = draw(&mut rng, &kept);
        let Ok(outcome) = panic::catch_unwind(|| step(&data)) else {
            let path = arguments.corpus.join(format!("disagreement-{}-{tried}", arguments.seed));
            fs::write(&path, &data)?;
            return Err(format!("library and twin disagree on input {tried}, kept as {}", path.display()).into());
        };
        tried += 1;
        note(&mut shortest, outcome, &data);
        keep(&mut rng, &mut kept, data);
    }
    if arguments.collect {
        for ((call, number), data) in shortest {
            fs::write(arguments.corpus.join(format!("{call}-{number}")), data)?;
        }
    }
    Ok(tried)
}

fn main() -> ExitCode {
    let Some(arguments) = arguments() else {
        eprintln!("usage: fuzz [--collect] SECONDS SEED CORPUS");
        return ExitCode::from(2);
    };
    match drive(&arguments) {
        Ok(tried) => {
            println!("fuzz: seed {}, {tried} inputs, library and twin agree", arguments.seed);
            ExitCode::SUCCESS
        }
        Err(error) => {
            println!("fuzz: seed {}: {error}", arguments.seed);
            ExitCode::FAILURE
        }
    }
}
