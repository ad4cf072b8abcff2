//! most_units COUNT SEED: our count of the units that would have fitted, through the C interface, against longest paths over counts, on
//! COUNT records (good ones of every size, and damaged copies), each with all four pairs of stage and strictness. Longest paths are held
//! to all paths written out, of small stages, and for a ninth of the records to the original. Prints how many were compared, what they were
//! answered with and how many differ; the exit status is 0 only for none.

use oracle::arguments::count_and_seed;
use oracle::damage::damage;
use oracle::generate::{many_units, phrase, share_stages, Kind};
use oracle::maker::{encode, encode_shared};
use oracle::most_units::{boundaries, by_all_paths, by_original, wanted, word_pairs, Most};
use oracle::ours;
use oracle::phrase::Phrase;
use oracle::random::Random;
use oracle::tally::{conclude, MostUnits, Tally};

/// The most boundaries of a stage whose paths are written out.
const FEW: usize = 8;

#[derive(Default)]
struct Calls {
    tally: Tally,
    answers: MostUnits,
    written_out: Tally,
    original: Tally,
}

impl Calls {
    fn compare(&mut self, record: &[u8], (stage, strict): (u32, u32), with_original: bool) {
        let wanted = wanted(record, stage, strict);
        self.answers.count(stage, strict, &wanted);
        if let Ok(most) = wanted {
            let p = Phrase::parse(record);
            self.hold(&p, (stage, strict), most, with_original);
        }
        let got = ours::most_units(record, stage, strict);
        self.tally.compare(&Ok(wanted), &got, || {
            format!("record {record:?}, stage {stage}, strict {strict}")
        });
    }

    /// Longest paths to the other ways.
    fn hold(&mut self, p: &Phrase, (stage, strict): (u32, u32), most: Most, with_original: bool) {
        let input = || format!("longest paths of {p:?}, stage {stage}, strict {strict}");
        if boundaries(p, stage) <= FEW {
            let all = by_all_paths(p, stage, strict);
            self.written_out.compare(&all, &Ok(most), input);
        }
        if with_original {
            let original = by_original(p, stage, strict);
            self.original.compare(&original, &Ok(most), input);
        }
    }
}

/// One record in 100 is maximal, a quarter of the others has many units, and a fifth has sections that share bytes.
fn draw(r: &mut Random, i: usize) -> Vec<u8> {
    let mut p = match i / 2 % 4 {
        _ if i % 200 < 2 => phrase(r, Kind::Maximal),
        0 => phrase(r, Kind::Typical),
        1 => many_units(r),
        _ => phrase(r, Kind::Tiny),
    };
    if !r.once_in(5) {
        return encode(&p);
    }
    if r.once_in(2) {
        share_stages(&mut p);
    }
    encode_shared(&p)
}

fn main() {
    let (count, mut r) = count_and_seed("most_units");
    let mut calls = Calls::default();
    for i in 0..count {
        let mut record = draw(&mut r, i);
        if i % 2 == 1 {
            damage(&mut r, &mut record);
        }
        for pair in word_pairs(&mut r) {
            calls.compare(&record, pair, i / 2 % 9 == 0);
        }
    }
    println!("{} calls, of which {}", calls.tally.compared, calls.answers);
    println!(
        "{} also compared with all paths written out, {} with the original",
        calls.written_out.compared, calls.original.compared
    );
    conclude(calls.tally.differ + calls.written_out.differ + calls.original.differ);
}
