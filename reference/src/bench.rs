//! Times the library beside the fast form on the same work, in one process.
//!
//! A time is the least over many rounds of many calls, with warm buffers; the rounds
//! of both sides take turns. Each whole run is a process of its own, since a short
//! call's time depends on where the stack and the buffers happen to lie. Where the
//! write is accepted, the store is put back by a copy before every call, and the time
//! of that copy alone is taken off both sides.

mod indexed;
mod sides;
mod table;
mod works;

use crate::calls::Call;
use sides::{library, nothing, rust, Output};
use std::env;
use std::hint::black_box;
use std::process::Command;
use std::time::Instant;
use works::{works, Work};

/// The command of one whole run.
pub const ONE_RUN: &str = "bench-run";

const ROUNDS: usize = 40;

/// How long a round is to take, in nanoseconds.
const ROUND: f64 = 200_000.0;

/// The times of one work in one run, in nanoseconds.
#[derive(Clone, Copy)]
struct Times {
    library: f64,
    rust: f64,
}

/// The time of one turn, over a round of turns.
fn round(
    run: impl Fn(&mut Call, &mut Output) -> u32,
    call: &mut Call,
    saved: Option<&[u8]>,
    turns: usize,
) -> f64 {
    let mut output = Output::new();
    let begin = Instant::now();
    for _ in 0..turns {
        if let Some(saved) = saved {
            black_box(&mut call.store).copy_from_slice(black_box(saved));
        }
        black_box(run(black_box(call), &mut output));
        black_box(&output);
    }
    begin.elapsed().as_nanos() as f64 / turns as f64
}

impl Work {
    /// Whether both sides do what is to be timed.
    fn check(&self) {
        let mut one = self.call.clone();
        let mut two = self.call.clone();
        let mut outputs = [Output::new(), Output::new()];
        let library = library(&mut one, &mut outputs[0]);
        let rust = rust(&mut two, &mut outputs[1]);
        assert!(
            library == self.ax && rust == self.ax && outputs[0] == outputs[1] && one == two,
            "{}: the two sides do not agree",
            self.name
        );
    }

    fn time(&self) -> Times {
        let mut call = self.call.clone();
        rust(&mut call, &mut Output::new());
        let saved = (call.store != self.call.store).then_some(&self.call.store[..]);
        call.store.copy_from_slice(&self.call.store);

        let turns = |time: f64| (ROUND / time.max(1.0)).ceil() as usize;
        let library_turns = turns(round(library, &mut call, saved, 20));
        let rust_turns = turns(round(rust, &mut call, saved, 20));
        let mut least = Times {
            library: f64::MAX,
            rust: f64::MAX,
        };
        let mut copy = f64::MAX;
        for _ in 0..ROUNDS {
            least.library = least
                .library
                .min(round(library, &mut call, saved, library_turns));
            least.rust = least.rust.min(round(rust, &mut call, saved, rust_turns));
            if saved.is_some() {
                copy = copy.min(round(nothing, &mut call, saved, rust_turns));
            }
        }
        if saved.is_some() {
            least.library -= copy;
            least.rust -= copy;
        }
        least
    }
}

/// One whole run: a line for each work, with the two times.
pub fn one_run() {
    let works = works();
    works.iter().for_each(Work::check);
    for work in &works {
        let times = work.time();
        println!("{} {}", times.library, times.rust);
    }
}

/// The times that one whole run gives, in a process of its own.
fn run_apart(works: usize) -> Result<Vec<Times>, String> {
    let program = env::current_exe().map_err(|error| error.to_string())?;
    let output = Command::new(program)
        .arg(ONE_RUN)
        .output()
        .map_err(|error| error.to_string())?;
    if !output.status.success() {
        return Err(String::from_utf8_lossy(&output.stderr).into_owned());
    }
    let text = String::from_utf8_lossy(&output.stdout);
    let times: Vec<Times> = text
        .lines()
        .filter_map(|line| {
            let (library, rust) = line.split_once(' ')?;
            Some(Times {
                library: library.parse().ok()?,
                rust: rust.parse().ok()?,
            })
        })
        .collect();
    if times.len() != works {
        return Err("a run gave no times".to_string());
    }
    Ok(times)
}

/// Times everything in so many whole runs, and prints the table.
pub fn bench(runs: usize) -> Result<(), String> {
    let works = works();
    works.iter().for_each(Work::check);
    let mut times: Vec<Vec<Times>> = vec![Vec::new(); works.len()];
    for _ in 0..runs {
        for (times, one) in times.iter_mut().zip(run_apart(works.len())?) {
            times.push(one);
        }
    }

    table::print(&works, &times, runs);
    Ok(())
}
