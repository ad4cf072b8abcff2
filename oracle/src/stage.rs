//! A stage of a phrase for the programs that follow a path step by step: its boundaries, the units that it admits, and the costs of
//! starts, gaps and ends.

use crate::figure::{Counts, Figure};
use crate::phrase::Phrase;

/// A unit that a relaxed pass admits; a strict one, where it has a row.
#[derive(Clone, Copy, Debug, PartialEq)]
pub struct Unit {
    pub from: usize,
    pub to: usize,
    /// of the anchor that it holds, if any
    pub row: Option<usize>,
    pub duration: f64,
}

pub struct Stage<'a> {
    phrase: &'a Phrase,
    pub bounds: &'a [u32],
    /// costs, by boundary: of all before it, from it to the next, of all from it on
    pub start: Vec<Figure>,
    pub gap: Vec<Figure>,
    pub end: Vec<Figure>,
    /// by first boundary, each by ascending last one
    pub from: Vec<Vec<Unit>>,
    /// by last boundary, each by ascending first one
    pub into: Vec<Vec<Unit>>,
}

impl<'a> Stage<'a> {
    pub fn nuclei(p: &'a Phrase) -> Stage<'a> {
        Stage::new(p, &p.boundaries, &rows(p, &p.nuclei, 0), &p.durations[0])
    }

    /// It exists exactly when there are anchors for it.
    pub fn added(p: &'a Phrase) -> Option<Stage<'a>> {
        let rows = rows(p, &p.anchors, p.nuclei.len());
        let stage = || Stage::new(p, &p.added, &rows, &p.durations[1]);
        (!p.anchors.is_empty()).then(stage)
    }

    fn new(
        phrase: &'a Phrase,
        bounds: &'a [u32],
        anchors: &[(u32, usize)],
        durations: &[f64; 75],
    ) -> Stage<'a> {
        let below = counts_below(phrase, bounds);
        let all = counts_below(phrase, &[u32::MAX])[0];
        let cost = |counts| Figure::cost(phrase, counts);
        let from = units(bounds, anchors, durations);
        let mut into = vec![Vec::new(); bounds.len()];
        for unit in from.iter().flatten() {
            into[unit.to].push(*unit);
        }
        Stage {
            phrase,
            bounds,
            start: below.iter().map(|&here| cost(here)).collect(),
            gap: below.windows(2).map(|w| cost(w[0].up_to(w[1]))).collect(),
            end: below.iter().map(|&here| cost(here.up_to(all))).collect(),
            from,
            into,
        }
    }

    /// The score of a unit with this column.
    pub fn score(&self, unit: &Unit, column: u8) -> f32 {
        match unit.row {
            Some(row) => self.phrase.scores[row][usize::from(column)],
            None => self.phrase.unvoiced,
        }
    }

    pub fn value(&self, unit: &Unit, column: u8) -> Figure {
        Figure::unit(self.score(unit, column), unit.duration)
    }

    pub fn columns(&self) -> usize {
        self.phrase.columns
    }
}

impl Unit {
    pub fn admitted(&self, strict: bool) -> bool {
        self.row.is_some() || !strict
    }
}

/// The frames within the mask, each with its row.
fn rows(p: &Phrase, frames: &[u32], first: usize) -> Vec<(u32, usize)> {
    let rows = frames.iter().copied().zip(first..);
    rows.filter(|&(frame, _)| p.within_mask(frame)).collect()
}

/// The speech frames and the nuclei below each of these ascending frames; those outside the mask are neither.
fn counts_below(p: &Phrase, frames: &[u32]) -> Vec<Counts> {
    let mut counts = Counts::default();
    let mut at = 0;
    let mut below = Vec::new();
    for &frame in frames {
        let end = p.mask.len().min(frame as usize);
        for &speech in &p.mask[at..end.max(at)] {
            counts.speech += u32::from(speech);
        }
        at = end.max(at);
        let nuclei = p.nuclei.iter().filter(|&&f| f < frame && p.within_mask(f));
        counts.nuclei = nuclei.count() as u32;
        below.push(counts);
    }
    below
}

/// Straight from document 01's "A pass admits exactly these paths": every later boundary 6 to 80 frames on, at most one anchor held.
fn units(bounds: &[u32], anchors: &[(u32, usize)], durations: &[f64; 75]) -> Vec<Vec<Unit>> {
    let unit = |from: usize, to: usize| {
        let frames = bounds[to] - bounds[from];
        let first = anchors.partition_point(|&(f, _)| f < bounds[from]);
        let held = anchors[first..]
            .iter()
            .take_while(|&&(f, _)| f < bounds[to]);
        let fits = (6..=80).contains(&frames) && held.clone().count() <= 1;
        fits.then(|| Unit {
            from,
            to,
            row: held.clone().next().map(|&(_, row)| row),
            duration: durations[frames as usize - 6],
        })
    };
    let later = |from: usize| (from + 1..bounds.len()).filter_map(move |to| unit(from, to));
    (0..bounds.len())
        .map(|from| later(from).collect())
        .collect()
}
