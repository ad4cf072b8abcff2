//! How many answers were compared and how many differ, what records were answered with, and which lists of frames.

use crate::entry::{entries, Entry};
use crate::most_units::{Answer, Most, CAP};
use crate::ours::Decoded;
use crate::phrase::Phrase;
use crate::wanted;
use std::cmp::Ordering;
use std::collections::BTreeSet;
use std::fmt::{self, Debug, Display};
use std::process::exit;

#[derive(Default)]
pub struct Tally {
    pub compared: usize,
    pub differ: usize,
}

impl Tally {
    /// The first three that differ are printed.
    pub fn compare<T: PartialEq + Debug>(
        &mut self,
        wanted: &T,
        got: &T,
        input: impl FnOnce() -> String,
    ) {
        self.compared += 1;
        if wanted != got {
            self.differ += 1;
            if self.differ <= 3 {
                println!("{}\nwanted {wanted:?}\ngot {got:?}", input());
            }
        }
    }
}

/// How many records were refused, by the refusal's number, and of those accepted how many entries they have, by pass, and what
/// sums.
#[derive(Default)]
pub struct Answers {
    refused: [usize; 12],
    passes: [usize; 6],
    sums: Sums,
}

impl Answers {
    pub fn count(&mut self, record: &[u8], answer: &Decoded) {
        match answer {
            Err(number) => self.refused[*number as usize] += 1,
            Ok(words) => {
                let ranked: Vec<Entry> = entries(words).collect();
                let unvoiced = Phrase::parse(record).unvoiced;
                for e in &ranked {
                    self.passes[e.pass as usize] += 1;
                    self.sums.entry(e, unvoiced);
                }
                self.sums.ranking(&ranked);
            }
        }
    }
}

impl Display for Answers {
    fn fmt(&self, f: &mut fmt::Formatter) -> fmt::Result {
        write!(
            f,
            "refused by 1 to 11: {:?}; entries by pass: {:?}; {}",
            &self.refused[1..],
            self.passes,
            self.sums
        )
    }
}

/// How often a sum is one that its llr does not show.
#[derive(Default)]
struct Sums {
    /// entries of each case, with a path and without
    cases: [[usize; 2]; 6],
    /// records in which different sums have equal llr bits, and those of them that rank a lower sum before a higher one
    equal_llr: usize,
    lower_first: usize,
}

const CASES: [&str; 6] = [
    "above the clamp",
    "below it",
    "+0",
    "-0",
    "not 0 though the llr is",
    "not the product in f64",
];

impl Sums {
    fn entry(&mut self, e: &Entry, unvoiced: f32) {
        let is = |x: f64| e.sum.to_bits() == x.to_bits();
        let product = e.units.len() as f64 * f64::from(unvoiced);
        let cases = [
            e.sum > 1.0e6,
            e.sum < -1.0e6,
            is(0.0),
            is(-0.0),
            e.llr == 0.0 && e.sum != 0.0,
            !e.has_path() && !is(product),
        ];
        for (counts, case) in self.cases.iter_mut().zip(cases) {
            counts[usize::from(!e.has_path())] += usize::from(case);
        }
    }

    /// Equal llr bits stand next to each other.
    fn ranking(&mut self, ranked: &[Entry]) {
        let equal = |e: &&[Entry]| e[0].llr.to_bits() == e[1].llr.to_bits();
        let neighbours = ranked.windows(2).filter(equal);
        let orders: Vec<Ordering> = neighbours.map(|e| e[0].sum.total_cmp(&e[1].sum)).collect();
        self.equal_llr += usize::from(orders.iter().any(|o| o.is_ne()));
        self.lower_first += usize::from(orders.iter().any(|o| o.is_lt()));
    }
}

impl Display for Sums {
    fn fmt(&self, f: &mut fmt::Formatter) -> fmt::Result {
        let cases = CASES.iter().zip(self.cases);
        let cases: Vec<String> = cases.map(|(case, n)| format!("{case} {n:?}")).collect();
        write!(
            f,
            "sums with a path and without: {}; records with different sums of equal llr bits: {}, with the lower one first: {}",
            cases.join(", "),
            self.equal_llr,
            self.lower_first
        )
    }
}

/// How many calls for the most units were refused, by the refusal's number, and what the others were answered with, by stage and
/// strictness: each count, and no path.
#[derive(Default)]
pub struct MostUnits {
    refused: [usize; 12],
    units: [[usize; CAP as usize + 1]; 4],
    no_path: [usize; 4],
}

impl MostUnits {
    pub fn count(&mut self, stage: u32, strict: u32, answer: &Answer) {
        let pair = 2 * usize::from(stage != 0) + usize::from(strict != 0);
        match answer {
            Err(number) => self.refused[*number as usize] += 1,
            Ok(Most::NoPath) => self.no_path[pair] += 1,
            Ok(Most::Units(units)) => self.units[pair][*units as usize] += 1,
        }
    }
}

impl Display for MostUnits {
    fn fmt(&self, f: &mut fmt::Formatter) -> fmt::Result {
        writeln!(f, "refused by 1 to 11: {:?}", &self.refused[1..])?;
        let pairs = [
            "nuclei relaxed",
            "nuclei strict",
            "added relaxed",
            "added strict",
        ];
        let column = |cell: String| format!("{cell:>8}");
        let head: String = (0..CAP).map(|units| column(units.to_string())).collect();
        write!(f, "{:14}{head}      16+ no path", "units")?;
        for (pair, name) in pairs.iter().enumerate() {
            let counts = self.units[pair].iter().chain([&self.no_path[pair]]);
            let row: String = counts.map(|n| column(n.to_string())).collect();
            write!(f, "\n{name:14}{row}")?;
        }
        Ok(())
    }
}

/// Which lists of frames were lent for a rate: how many were accepted, and refused by the refusal's number; and which kinds there were.
#[derive(Default)]
pub struct Rates {
    accepted: usize,
    refused: [usize; 12],
    numbers_of_frames: BTreeSet<usize>,
    /// of two frames or more
    ascending: usize,
    /// accepted, with gaps
    even_gaps: usize,
    /// accepted, with gaps whose median is 0
    fell_back: usize,
}

impl Rates {
    pub fn count(&mut self, frames: &[u32], answer: &Result<u64, i32>) {
        self.numbers_of_frames.insert(frames.len());
        self.ascending += usize::from(frames.len() > 1 && frames.is_sorted());
        match answer {
            Err(number) => self.refused[*number as usize] += 1,
            Ok(_) => {
                self.accepted += 1;
                self.even_gaps += usize::from(frames.len() > 1 && frames.len() % 2 == 1);
                // a rate is above 0, so this default comes back only where it is fallen back to
                let fell_back = wanted::rate_s(frames, 0.0) == Ok(0);
                self.fell_back += usize::from(frames.len() > 1 && fell_back);
            }
        }
    }
}

impl Display for Rates {
    fn fmt(&self, f: &mut fmt::Formatter) -> fmt::Result {
        let numbers = &self.numbers_of_frames;
        write!(
            f,
            "of {} different numbers of frames, from {:?} to {:?}; ascending, of two frames or more: {}; accepted: {}, with an even \
             number of gaps {}, with the default for a median of 0 {}; refused by 1 to 11: {:?}",
            numbers.len(),
            numbers.first().unwrap_or(&0),
            numbers.last().unwrap_or(&0),
            self.ascending,
            self.accepted,
            self.even_gaps,
            self.fell_back,
            &self.refused[1..]
        )
    }
}

/// Ends the program, with 0 only where nothing differs.
pub fn conclude(differ: usize) -> ! {
    println!("{differ} differ");
    exit(i32::from(differ != 0));
}
