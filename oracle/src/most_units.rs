//! How many units would have fitted: the most that an admitted path of a stage and a strictness has, by document 02's Ask 1. Once by
//! longest paths over counts, for small stages once more by all paths written out, and once by the unit counts for which the
//! original finds a path.

use crate::entry::entries;
use crate::phrase::Phrase;
use crate::random::Random;
use crate::reference::{decode, Given};
use crate::refusal::refusal;
use std::collections::BTreeSet;

/// Counts end here: 16 reads "16 or more".
pub const CAP: u32 = 16;

#[derive(Clone, Copy, Debug, PartialEq, Eq)]
pub enum Most {
    /// the stage has no boundaries
    NoPath,
    /// at most the cap
    Units(u32),
}

/// What the call answers, or the number of the refusal.
pub type Answer = Result<Most, i32>;

/// A stage's boundaries, and its anchors that are within the mask.
struct Stage<'a> {
    bounds: &'a [u32],
    anchors: Vec<u32>,
    strict: bool,
}

impl<'a> Stage<'a> {
    /// By the two words of the call: 0 is the nuclei stage and relaxed, every other word the added stage and strict.
    fn of(p: &'a Phrase, stage: u32, strict: u32) -> Stage<'a> {
        let (bounds, anchors) = match stage {
            0 => (&p.boundaries, &p.nuclei),
            _ => (&p.added, &p.anchors),
        };
        let within = |f: &u32| p.within_mask(*f);
        Stage {
            bounds,
            anchors: anchors.iter().copied().filter(within).collect(),
            strict: strict != 0,
        }
    }

    /// Whether a unit may go from one of the boundaries to a later one.
    fn admits(&self, from: usize, to: usize) -> bool {
        let (from, to) = (self.bounds[from], self.bounds[to]);
        let held = self.anchors.iter().filter(|f| (from..to).contains(f));
        match held.count() {
            0 => !self.strict && (6..=80).contains(&(to - from)),
            1 => (6..=80).contains(&(to - from)),
            _ => false,
        }
    }

    /// For each boundary the most units of an admitted path that ends there: of one that starts there, of one whose last step is
    /// the gap, and of those whose last step is a unit.
    fn most_at_each(&self) -> Vec<u32> {
        let mut most: Vec<u32> = Vec::new();
        for here in 0..self.bounds.len() {
            let gap = most.last().copied();
            let origins = (0..here).filter(|&from| self.admits(from, here));
            let units = origins.map(|from| most[from] + 1);
            let here = units.chain(gap).fold(0, u32::max);
            most.push(here);
        }
        most
    }

    /// Every admitted path that goes on from here, with so many units up to here: its count is noted.
    fn walk(&self, here: usize, units: u32, counts: &mut BTreeSet<u32>) {
        counts.insert(units);
        if here + 1 < self.bounds.len() {
            self.walk(here + 1, units, counts);
        }
        for to in (here + 1..self.bounds.len()).filter(|&to| self.admits(here, to)) {
            self.walk(to, units + 1, counts);
        }
    }
}

/// What the call has to answer. 11 never applies, for nothing is lent but the record.
pub fn wanted(record: &[u8], stage: u32, strict: u32) -> Answer {
    match refusal(record, usize::MAX, usize::MAX, usize::MAX) {
        Some(number) => Err(number),
        None => Ok(most_units(&Phrase::parse(record), stage, strict)),
    }
}

/// A path may end at any boundary, so the most at any of them counts.
pub fn most_units(p: &Phrase, stage: u32, strict: u32) -> Most {
    let most = Stage::of(p, stage, strict).most_at_each().into_iter().max();
    most.map_or(Most::NoPath, |units| Most::Units(units.min(CAP)))
}

/// The same by the unit counts of all admitted paths, each path written out; an error where a smaller count than the largest is missing.
/// Paths double at least with each boundary, so this is for few.
pub fn by_all_paths(p: &Phrase, stage: u32, strict: u32) -> Result<Most, String> {
    let stage = Stage::of(p, stage, strict);
    let mut counts = BTreeSet::new();
    (0..stage.bounds.len()).for_each(|start| stage.walk(start, 0, &mut counts));
    largest(&counts)
}

/// Every count below the largest is to be there.
fn largest(counts: &BTreeSet<u32>) -> Result<Most, String> {
    match counts.last() {
        None => Ok(Most::NoPath),
        Some(&last) if counts.iter().copied().eq(0..=last) => Ok(Most::Units(last.min(CAP))),
        Some(_) => Err(format!("paths of these counts only: {counts:?}")),
    }
}

/// The same by the original, which is given a candidate of each unit count up to the cap and says in which pass it finds it. It has no
/// candidates without units; a path of none is there where there are boundaries.
pub fn by_original(p: &Phrase, stage: u32, strict: u32) -> Result<Most, String> {
    let stage = Stage::of(p, stage, strict);
    let words = decode(&beside_a_nucleus(p, &stage), Given::WithinMask);
    // a path that is found strict, in pass 1, is a relaxed one too
    let passes = if stage.strict { 1..=1 } else { 1..=2 };
    let found = entries(&words).filter(|e| passes.contains(&e.pass));
    let mut counts: BTreeSet<u32> = found.map(|e| e.units.len() as u32).collect();
    if !stage.bounds.is_empty() {
        counts.insert(0);
    }
    largest(&counts)
}

/// The stage as the added one of a phrase in which every pass is run and the nuclei stage has no path: there is a nucleus, on a frame
/// more than the mask has, and no boundary for it. An anchor past that sees to it that there is an added stage, and is dropped.
fn beside_a_nucleus(p: &Phrase, stage: &Stage) -> Phrase {
    let nucleus = p.mask.len() as u32;
    let anchors = [&stage.anchors[..], &[nucleus + 1]].concat();
    Phrase {
        mask: [&p.mask[..], &[true]].concat(),
        nuclei: vec![nucleus],
        boundaries: vec![],
        added: stage.bounds.to_vec(),
        columns: 1,
        scores: vec![vec![0.0]; 1 + anchors.len()],
        anchors,
        candidates: (1..=CAP).map(|k| (k, vec![0; k as usize])).collect(),
        per_frame: 0.0,
        insertion_llr: 0.0,
        unvoiced: 0.0,
        speech: Some((0, nucleus)),
        durations: [[0.0; 75]; 2],
    }
}

/// How many boundaries the stage of this word has.
pub fn boundaries(p: &Phrase, stage: u32) -> usize {
    Stage::of(p, stage, 0).bounds.len()
}

/// A stage word and a strictness word for each of the four pairs, "every other word" than 0 drawn: nuclei relaxed, nuclei strict, added
/// relaxed, added strict.
pub fn word_pairs(r: &mut Random) -> [(u32, u32); 4] {
    let mut other = || r.word_above_0();
    [(0, 0), (0, other()), (other(), 0), (other(), other())]
}
