//! distance COUNT SEED: document 02's Ask 4, tried on COUNT drawn records (good ones of every size, hard figures, and damaged copies) and on
//! records built to be bad. Our pass, full sum and rows of every candidate, through the C interface, against a second search that gives
//! the path; that path, all paths of small stages and drawn paths of large ones against their exact sums; and the returned path against the
//! best exact sum. Prints how many were checked and how near they came, as powers of two; the exit status is 0 only where no bound is
//! broken and nothing differs, and else the smallest such record is printed.

use oracle::arguments::count_and_seed;
use oracle::bad;
use oracle::damage::{damage, lengths};
use oracle::distance::{self_test, Distances, Effort};
use oracle::entry::ENTRY_WORDS;
use oracle::generate::{alike, phrase, share_stages, Kind};
use oracle::hard::{hard, hard_maximal};
use oracle::maker::{encode, encode_shared};
use oracle::ours::{Desk, WORK_CELLS};
use oracle::phrase::Phrase;
use oracle::random::Random;
use oracle::refusal::refusal;
use std::process::exit;

/// The smallest record that was wrong, and why.
#[derive(Default)]
struct Wrong {
    records: usize,
    smallest: Option<(Vec<u8>, String)>,
}

impl Wrong {
    fn note(&mut self, record: &[u8], why: String) {
        self.records += 1;
        let smaller = |(least, _): &(Vec<u8>, String)| record.len() < least.len();
        if self.smallest.as_ref().is_none_or(smaller) {
            self.smallest = Some((record.to_vec(), why));
        }
    }
}

/// The lengths of the two work areas and of the output.
type Room = (usize, usize, usize);

#[derive(Default)]
struct Calls {
    made: usize,
    refused: [usize; 12],
    distances: Distances,
    desk: Desk,
}

impl Calls {
    fn call(
        &mut self,
        r: &mut Random,
        record: &[u8],
        room: Room,
        effort: Effort,
    ) -> Result<(), String> {
        self.made += 1;
        let (best, back, out) = room;
        let lent = record.to_vec();
        let answer = self.desk.decode(&lent, best, back, out)?;
        if lent != record {
            return Err("the record's bytes were changed".into());
        }
        match (refusal(record, best, back, out), answer) {
            (None, Ok(words)) => self
                .distances
                .record(&Phrase::parse(record), &words, r, effort),
            (Some(number), Err(got)) if number == got => {
                self.refused[number as usize] += 1;
                Ok(())
            }
            (wanted, got) => Err(format!("refusal {wanted:?}, ours {:?}", got.err())),
        }
    }

    fn report(&self, records: &str) {
        println!(
            "{} calls on {records} records, refused by 1 to 11: {:?}",
            self.made,
            &self.refused[1..]
        );
        println!("{records}: {}", self.distances);
    }
}

/// One in 200 is maximal; more than half have hard figures.
fn drawn(r: &mut Random, i: usize) -> Phrase {
    match i % 10 {
        _ if i % 400 == 0 => phrase(r, Kind::Maximal),
        _ if i % 400 == 200 => hard_maximal(r),
        0 | 1 => phrase(r, Kind::Tiny),
        2 => phrase(r, Kind::Typical),
        3 => alike(r),
        _ => hard(r),
    }
}

/// The record, now and then with sections that share bytes, and one in four damaged.
fn record(r: &mut Random, p: &mut Phrase) -> Vec<u8> {
    let mut record = match r.below(12) {
        0 => encode_shared(p),
        1 => {
            share_stages(p);
            encode_shared(p)
        }
        _ => encode(p),
    };
    if r.once_in(4) {
        damage(r, &mut record);
        record.shrink_to_fit();
    }
    record
}

fn generated(r: &mut Random, count: usize, wrong: &mut Wrong) -> Calls {
    let mut calls = Calls::default();
    for i in 0..count {
        let mut p = drawn(r, i);
        let record = record(r, &mut p);
        let effort = Effort {
            drawn: 16,
            furthest: r.once_in(4),
        };
        let room = lengths(r, ENTRY_WORDS * p.candidates.len());
        if let Err(why) = calls.call(r, &record, room, effort) {
            wrong.note(&record, why);
        }
    }
    calls
}

/// The three with a fixed result, and one drawn for each hundred of COUNT.
fn built(r: &mut Random, count: usize, wrong: &mut Wrong) -> Calls {
    let mut calls = Calls::default();
    let fixed = [bad::long(), bad::returned(), bad::passed_over()];
    let drawn: Vec<Phrase> = (0..count / 100).map(|_| bad::drawn(r)).collect();
    let effort = Effort {
        drawn: 50,
        furthest: true,
    };
    for p in fixed.iter().chain(&drawn) {
        let record = encode(p);
        let room = (WORK_CELLS, WORK_CELLS, ENTRY_WORDS);
        if let Err(why) = calls.call(r, &record, room, effort) {
            wrong.note(&record, why);
        }
    }
    calls
}

/// A record that is refused may have nothing to parse.
fn describe(record: &[u8], why: &str) {
    println!("the smallest, of {} bytes: {why}\n{record:?}", record.len());
    if refusal(record, usize::MAX, usize::MAX, usize::MAX).is_none() {
        println!("{:?}", Phrase::parse(record));
    }
}

fn main() {
    let (count, mut r) = count_and_seed("distance");
    if let Err(why) = self_test() {
        println!("{why}");
        exit(1);
    }
    let mut wrong = Wrong::default();
    generated(&mut r, count, &mut wrong).report("drawn");
    built(&mut r, count, &mut wrong).report("built");
    println!("{} wrong", wrong.records);
    if let Some((record, why)) = wrong.smallest {
        describe(&record, &why);
        exit(1);
    }
}
