//! Demand 3 checked by writing out every admitted path of a small phrase, straight from document 01: no table, no search.

use crate::entry::Entry;
use crate::phrase::Phrase;

struct Stage<'a> {
    bounds: &'a [u32],
    anchors: Vec<(u32, usize)>,
    durations: &'a [f64; 75],
}

/// The passes in their order: number, stage, whether strict.
fn passes(p: &Phrase) -> Vec<(u32, Stage<'_>, bool)> {
    let kept = |frames: &[u32], first: usize| -> Vec<(u32, usize)> {
        let rows = frames.iter().enumerate().map(|(i, &f)| (f, first + i));
        rows.filter(|&(f, _)| p.within_mask(f)).collect()
    };
    let nuclei = || Stage {
        bounds: &p.boundaries,
        anchors: kept(&p.nuclei, 0),
        durations: &p.durations[0],
    };
    let added = || Stage {
        bounds: &p.added,
        anchors: kept(&p.anchors, p.nuclei.len()),
        durations: &p.durations[1],
    };
    if p.speech.is_none() || nuclei().anchors.is_empty() {
        return Vec::new();
    }
    if p.anchors.is_empty() {
        vec![(0, nuclei(), true), (3, nuclei(), false)]
    } else {
        vec![(0, nuclei(), true), (1, added(), true), (2, added(), false)]
    }
}

fn cost(p: &Phrase, from: u32, to: u32) -> f64 {
    let speech = p
        .mask
        .iter()
        .enumerate()
        .filter(|(f, &m)| m && (from..to).contains(&(*f as u32)))
        .count();
    let inserted = p
        .nuclei
        .iter()
        .filter(|&&f| p.within_mask(f) && (from..to).contains(&f))
        .count();
    p.per_frame * speech as f64 - p.insertion_llr * inserted as f64
}

/// Every admitted path's sum for the columns, with its units' boundaries.
fn walk(
    p: &Phrase,
    stage: &Stage,
    strict: bool,
    columns: &[u8],
    at: usize,
    value: f64,
    units: &mut Vec<(usize, usize)>,
    found: &mut Vec<(f64, Vec<(usize, usize)>)>,
) {
    let here = stage.bounds[at];
    if units.len() == columns.len() {
        found.push((value - cost(p, here, p.mask.len() as u32), units.clone()));
    }
    if at + 1 < stage.bounds.len() {
        let gap = value - cost(p, here, stage.bounds[at + 1]);
        walk(p, stage, strict, columns, at + 1, gap, units, found);
    }
    if units.len() < columns.len() {
        for j in at + 1..stage.bounds.len() {
            let to = stage.bounds[j];
            let held: Vec<_> = stage
                .anchors
                .iter()
                .filter(|(f, _)| (here..to).contains(f))
                .collect();
            if !(6..=80).contains(&(to - here)) || held.len() > 1 || (strict && held.is_empty()) {
                continue;
            }
            let score = match held.first() {
                Some((_, row)) => p.scores[*row][usize::from(columns[units.len()])],
                None => p.unvoiced,
            };
            let unit = f64::from(score) + stage.durations[(to - here) as usize - 6];
            units.push((at, j));
            walk(p, stage, strict, columns, j, value + unit, units, found);
            units.pop();
        }
    }
}

/// What demand 3 asks for: the first pass that admits a path, and the largest sum of its paths; 4 or 5 where none does, and the product.
#[derive(Debug)]
pub struct Wanted {
    pub pass: u32,
    pub sum: f64,
    pub path: bool,
}

impl Wanted {
    /// The sum of a path as a number: which zero stands is the cell rule's to say. The llr follows from the entry's own sum.
    pub fn met_by(&self, entry: &Entry) -> bool {
        let same_bits = entry.sum.to_bits() == self.sum.to_bits();
        let llr = entry.sum.clamp(-1.0e6, 1.0e6) as f32;
        entry.pass == self.pass
            && (same_bits || self.path && entry.sum == self.sum)
            && entry.llr.to_bits() == llr.to_bits()
    }
}

pub fn answer(p: &Phrase, columns: &[u8]) -> Wanted {
    for (pass, stage, strict) in passes(p) {
        let mut found = Vec::new();
        for start in 0..stage.bounds.len() {
            let value = -cost(p, 0, stage.bounds[start]);
            walk(
                p,
                &stage,
                strict,
                columns,
                start,
                value,
                &mut Vec::new(),
                &mut found,
            );
        }
        if let Some(sum) = found.iter().map(|(s, _)| *s).reduce(f64::max) {
            return Wanted {
                pass,
                sum,
                path: true,
            };
        }
    }
    let nucleus = p.nuclei.iter().any(|&f| p.within_mask(f));
    Wanted {
        pass: if nucleus { 4 } else { 5 },
        sum: p.unvoiced_sum(columns.len()),
        path: false,
    }
}
