//! A second implementation of the update store, made from the owner's documents alone, to
//! check the library against.

#[cfg(feature = "board")]
mod bench;
#[cfg(feature = "board")]
mod board;
mod calls;
mod catalogue;
#[cfg(feature = "board")]
mod differ;
mod edges;
#[cfg(any(test, feature = "board"))]
mod fast;
mod generate;
mod index;
mod make;
mod model;
mod random;
#[cfg(feature = "board")]
mod shift;
mod store;
mod tally;
#[cfg(test)]
mod tests;
mod update;
mod vectors;
mod write;

use std::env;
use std::io::{self, Read};
use std::path::Path;
use std::process::ExitCode;

const USAGE: &str = "\
reference vectors DIR     writes DIR/stdin and DIR/stdout
reference differ N SEED   compares N random calls with the library
reference bench [R]       times the library beside plain Rust, R whole runs
reference catalogue       reads a store and writes its catalogue";

fn main() -> ExitCode {
    let words: Vec<String> = env::args().skip(1).collect();
    let words: Vec<&str> = words.iter().map(String::as_str).collect();
    match words[..] {
        ["vectors", directory] => vectors(directory),
        ["differ", calls, seed] => match (calls.parse(), seed.parse()) {
            (Ok(calls), Ok(seed)) => differ(calls, seed),
            _ => usage(),
        },
        ["bench"] => bench(5),
        ["bench", runs] => match runs.parse() {
            Ok(runs) if runs > 0 => bench(runs),
            _ => usage(),
        },
        #[cfg(feature = "board")]
        [bench::ONE_RUN] => {
            shift::keep();
            bench::one_run();
            ExitCode::SUCCESS
        }
        ["catalogue"] => catalogue(),
        _ => usage(),
    }
}

fn usage() -> ExitCode {
    eprintln!("{USAGE}");
    ExitCode::from(2)
}

fn vectors(directory: &str) -> ExitCode {
    match vectors::write_vectors(Path::new(directory)) {
        Ok(()) => ExitCode::SUCCESS,
        Err(error) => {
            eprintln!("{error}");
            ExitCode::FAILURE
        }
    }
}

fn catalogue() -> ExitCode {
    let mut store = Vec::new();
    if let Err(error) = io::stdin().read_to_end(&mut store) {
        eprintln!("standard input: {error}");
        return ExitCode::FAILURE;
    }
    print!("{}", catalogue::catalogue(&store));
    ExitCode::SUCCESS
}

#[cfg(feature = "board")]
fn differ(calls: u64, seed: u64) -> ExitCode {
    if differ::differ(calls, seed) == 0 {
        ExitCode::SUCCESS
    } else {
        ExitCode::FAILURE
    }
}

#[cfg(feature = "board")]
fn bench(runs: usize) -> ExitCode {
    match bench::bench(runs) {
        Ok(()) => ExitCode::SUCCESS,
        Err(error) => {
            eprintln!("{error}");
            ExitCode::FAILURE
        }
    }
}

#[cfg(not(feature = "board"))]
fn differ(_calls: u64, _seed: u64) -> ExitCode {
    no_library("differ")
}

#[cfg(not(feature = "board"))]
fn bench(_runs: usize) -> ExitCode {
    no_library("bench")
}

#[cfg(not(feature = "board"))]
fn no_library(command: &str) -> ExitCode {
    eprintln!("`{command}` needs the library: build with --features board.");
    ExitCode::from(2)
}
