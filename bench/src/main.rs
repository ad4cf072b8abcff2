//! The original and ours on the same records, and their `rate_s` on the same lists of frames, in one run.
//!
//! bench                    the ratio ours/original for each record, then for each set of lists; the exit status is 1 if one is above
//!                          its target
//! bench print              the same, but the exit status is 0
//! bench rates              the ratios of `rate_s` only; the exit status is 1 if one is above its target
//! bench SIDE RECORD COUNT  `ours` or `original` on `typical`, `maximal` or `heaviest`, COUNT times, for a profiler; with `most_units` our
//!                          call for the most units of the nuclei stage, strict
//! bench rate SIDE ORDER FRAMES COUNT
//!                          `rate_s` of `ours` or `original`, COUNT times on each list of a set, `ascending` or `shuffled`, of 2, 8, 16, 32
//!                          or 64 frames, for a profiler; prints the number of calls
//! bench growth             how cost grows, as a table

mod growth;
mod rates;
mod records;
mod sides;
mod timing;

use oracle::maker::encode;
use oracle::ours::most_units_number;
use oracle::phrase::Phrase;
use sides::{agreed_passes, decode_times, Original, Ours};
use std::hint::black_box;
use std::process::exit;

const NUCLEI_STRICT: u32 = 0;
const COUNT_RELAXED: u32 = 2;

/// Name, record, the pass that each candidate's path is found in, the number of rounds, and the part of the
/// original's time that ours takes at most.
fn records() -> [(&'static str, Phrase, u32, usize, f64); 3] {
    [
        ("typical", records::typical(), NUCLEI_STRICT, 20_000, 0.29),
        ("maximal", records::maximal(), NUCLEI_STRICT, 2_000, 0.29),
        // the last pass of three, so all of them run
        ("heaviest", records::heaviest(), COUNT_RELAXED, 500, 0.18),
    ]
}

/// Prints the ratios of the records; whether each is within its target.
fn record_ratios() -> bool {
    println!(
        "| Record | Ours, µs | Original, µs | Ratio of the minima | of the medians | Rounds |"
    );
    println!("|---|---|---|---|---|---|");
    let mut met = true;
    for (name, phrase, pass, rounds, target) in records() {
        let passes = agreed_passes(name, &phrase);
        assert!(passes.iter().all(|&p| p == pass), "{name}: {passes:?}");
        let (ours, original) = decode_times(&phrase, rounds);
        let ratio = ours.least() / original.least();
        println!(
            "| {name} | {:.1} | {:.1} | {ratio:.2} | {:.2} | {rounds} |",
            ours.least() * 1e6,
            original.least() * 1e6,
            ours.median() / original.median(),
        );
        met &= ratio <= target;
    }
    met
}

/// Prints the ratios of the records and of `rate_s`; whether each is within its target.
fn all_ratios() -> bool {
    let records_met = record_ratios();
    println!();
    let rates_met = rates::ratios();
    records_met && rates_met
}

/// Runs one side alone.
fn repeat(side: &str, record: &str, count: usize) {
    let Some((_, phrase, ..)) = records().into_iter().find(|r| r.0 == record) else {
        usage();
    };
    match side {
        "ours" => {
            let mut ours = Ours::of(&phrase);
            for _ in 0..count {
                black_box(ours.run());
            }
        }
        "original" => {
            let original = Original::of(&phrase);
            for _ in 0..count {
                black_box(original.run());
            }
        }
        "most_units" => {
            let record = encode(&phrase);
            for _ in 0..count {
                black_box(most_units_number(&record, 0, 1));
            }
        }
        _ => usage(),
    }
}

fn usage() -> ! {
    eprintln!("bench [print | rates | growth | SIDE RECORD COUNT | rate SIDE ORDER FRAMES COUNT]");
    eprintln!(
        "SIDE: ours, original, and without `rate` most_units; RECORD: typical, maximal, heaviest"
    );
    eprintln!("ORDER: ascending, shuffled; FRAMES: 2, 8, 16, 32, 64");
    exit(2);
}

fn number(text: &str) -> usize {
    text.parse().unwrap_or_else(|_| usage())
}

/// The exit status is 1 where a target is missed.
fn exit_by(met: bool) -> ! {
    exit(i32::from(!met));
}

fn main() {
    let args: Vec<String> = std::env::args().skip(1).collect();
    let args: Vec<&str> = args.iter().map(String::as_str).collect();
    match args[..] {
        [] => exit_by(all_ratios()),
        ["print"] => {
            all_ratios();
        }
        ["rates"] => exit_by(rates::ratios()),
        ["growth"] => growth::print(),
        [side, record, count] => repeat(side, record, number(count)),
        ["rate", side, order, frames, count] => {
            rates::repeat(side, order, number(frames), number(count))
        }
        _ => usage(),
    }
}
