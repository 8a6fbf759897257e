//! The tables of a bench.

use super::works::{growth_name, Work, GROWTH};
use super::{Times, ROUNDS};

/// The least times over all runs.
fn least(times: &[Times]) -> Times {
    let least = |time: fn(&Times) -> f64| times.iter().map(time).fold(f64::MAX, f64::min);
    Times {
        library: least(|one| one.library),
        rust: least(|one| one.rust),
    }
}

/// A ratio's median, least and greatest.
fn spread(ratios: impl Iterator<Item = f64>) -> [f64; 3] {
    let mut ratios: Vec<f64> = ratios.collect();
    ratios.sort_by(f64::total_cmp);
    [
        ratios[ratios.len() / 2],
        ratios[0],
        ratios[ratios.len() - 1],
    ]
}

/// Bytes in so many nanoseconds, as gigabytes a second.
fn speed(bytes: usize, time: f64) -> f64 {
    bytes as f64 / time
}

/// Prints all tables; each work has its times, run by run.
pub fn print(works: &[Work], times: &[Vec<Times>], runs: usize) {
    println!("Times are nanoseconds a call, the least of {runs} runs of {ROUNDS} rounds each.");
    println!("For accepted writes the copy that puts the store back is taken off both sides.");
    println!("The ratio is library by Rust, of each run: its median, least and greatest.");
    println!("Speeds are GB a second, of the scans.");
    println!();
    println!(
        "{:<48} {:>10} {:>10} {:>7} {:>7} {:>7} {:>8} {:>8}",
        "work", "library", "Rust", "ratio", "least", "most", "library", "Rust"
    );
    for (work, times) in works.iter().zip(times) {
        print_work(work, times);
    }
    print_growth(works, times);
    print_beside(works, times);
}

fn print_work(work: &Work, times: &[Times]) {
    let Times { library, rust } = least(times);
    let [median, low, high] = spread(times.iter().map(|one| one.library / one.rust));
    print!(
        "{:<48} {library:>10.1} {rust:>10.1} {median:>7.3} {low:>7.3} {high:>7.3}",
        work.name
    );
    if let Some(bytes) = work.scanned {
        let speeds = [library, rust].map(|time| speed(bytes, time));
        print!(" {:>8.2} {:>8.2}", speeds[0], speeds[1]);
    }
    println!();
}

fn print_growth(works: &[Work], times: &[Vec<Times>]) {
    println!();
    println!("How a scan of one-block updates grows, nanoseconds a block:");
    for blocks in GROWTH {
        for (work, times) in works.iter().zip(times) {
            if work.name == growth_name(blocks) {
                let least = least(times);
                println!(
                    "N = {blocks:>2}: library {:>8.1}, Rust {:>8.1}",
                    least.library / blocks as f64,
                    least.rust / blocks as f64
                );
            }
        }
    }
}

/// The library's own times: a work with the index by the one without it.
fn print_beside(works: &[Work], times: &[Vec<Times>]) {
    println!();
    println!("The library's time by its own without the index, of each run:");
    for (work, own) in works.iter().zip(times) {
        let Some(beside) = &work.beside else { continue };
        let same = works.iter().position(|other| other.name == *beside);
        let plain = &times[same.expect("the work without the index is timed")];
        let ratios = own.iter().zip(plain).map(|(a, b)| a.library / b.library);
        let [median, low, high] = spread(ratios);
        println!(
            "{:<48} by {beside:<40} {median:>7.3} {low:>7.3} {high:>7.3}",
            work.name
        );
    }
}
