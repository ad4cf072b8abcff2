//! Paths of any number of units, each unit with any column: all of a small stage, drawn ones, and those that rounding takes furthest
//! from their exact sum.

use crate::figure::Figure;
use crate::random::Random;
use crate::stage::{Stage, Unit};
use crate::whole::Whole;
use std::cmp::Reverse;

/// Every path, with columns drawn on the way; gives the sum of each. Paths more than double with each boundary, so this is for few.
pub fn all(stage: &Stage, strict: bool, r: &mut Random) -> Vec<Figure> {
    let mut sums = Vec::new();
    for start in 0..stage.bounds.len() {
        let value = Figure::start(stage.start[start]);
        go_on(stage, strict, r, start, value, &mut sums);
    }
    sums
}

fn go_on(
    stage: &Stage,
    strict: bool,
    r: &mut Random,
    at: usize,
    value: Figure,
    sums: &mut Vec<Figure>,
) {
    sums.push(value.minus(stage.end[at]));
    if at + 1 < stage.bounds.len() {
        let gap = value.minus(stage.gap[at]);
        go_on(stage, strict, r, at + 1, gap, sums);
    }
    for unit in stage.from[at].iter().filter(|u| u.admitted(strict)) {
        let value = value.plus(drawn_value(stage, unit, r));
        go_on(stage, strict, r, unit.to, value, sums);
    }
}

fn drawn_value(stage: &Stage, unit: &Unit, r: &mut Random) -> Figure {
    stage.value(unit, r.below(stage.columns()) as u8)
}

/// One drawn path: mostly from a low boundary on and to the last, with short units, so that paths of up to 63 steps occur. None where there
/// are no boundaries.
pub fn drawn(stage: &Stage, strict: bool, r: &mut Random) -> Option<Figure> {
    let n = stage.bounds.len();
    if n == 0 {
        return None;
    }
    let mut at = if r.once_in(2) { 0 } else { r.below(n) };
    let (ends, gaps) = (r.pick(&[4, 100, 1000]), r.pick(&[2, 4, 100]));
    let mut sum = Figure::start(stage.start[at]);
    while at + 1 < n && !r.once_in(ends) {
        let first = stage.from[at].iter().find(|u| u.admitted(strict));
        let any = || stage.from[at].iter().filter(|u| u.admitted(strict));
        let unit = if r.once_in(3) {
            any().nth(r.below(any().count().max(1)))
        } else {
            first
        };
        (sum, at) = match unit {
            Some(unit) if !r.once_in(gaps) => (sum.plus(drawn_value(stage, unit, r)), unit.to),
            _ => (sum.minus(stage.gap[at]), at + 1),
        };
    }
    Some(sum.minus(stage.end[at]))
}

/// How many of the ways to a boundary the search for far paths goes on from, and how many columns it tries for a unit.
const KEPT: usize = 6;
const TRIED: usize = 6;

/// The sum that is furthest above its exact sum (or below it) of those that a narrow search finds: at each boundary it goes on from the few
/// ways that err the most. What it finds are sums of admitted paths, though perhaps not the furthest.
pub fn furthest(stage: &Stage, strict: bool, r: &mut Random, above: bool) -> Option<Figure> {
    let error = |f: &Figure| if above { f.error() } else { -f.error() };
    let n = stage.bounds.len();
    let mut ways: Vec<Vec<(Whole, Figure)>> = vec![Vec::new(); n];
    let mut ends = Vec::new();
    for at in 0..n {
        let start = Figure::start(stage.start[at]);
        ways[at].push((error(&start), start));
        ways[at].sort_by_key(|way| Reverse(way.0));
        ways[at].truncate(KEPT);
        for (_, here) in ways[at].clone() {
            ends.push(here.minus(stage.end[at]));
            if at + 1 < n {
                let gap = here.minus(stage.gap[at]);
                ways[at + 1].push((error(&gap), gap));
            }
            for unit in stage.from[at].iter().filter(|u| u.admitted(strict)) {
                for _ in 0..stage.columns().min(TRIED) {
                    let value = here.plus(drawn_value(stage, unit, r));
                    ways[unit.to].push((error(&value), value));
                }
            }
        }
    }
    ends.into_iter().max_by_key(error)
}

#[cfg(test)]
mod tests {
    use super::*;
    use crate::maker::sample;

    /// Two boundaries: starts at either, the gap, and the unit: four paths, the relaxed and the strict ones alike.
    #[test]
    fn all_paths_of_the_sample_phrase() {
        let p = sample();
        let stage = Stage::nuclei(&p);
        let sums = |strict| all(&stage, strict, &mut Random(1));
        // start at 4 and end there: -2, then -(0.5 * 16 + 2); by the gap the same; by the unit -2.25; from 14: -(7 + 2) - 3
        let wanted = [-12.0, -12.0, -2.25, -12.0];
        for strict in [false, true] {
            let found = sums(strict);
            assert_eq!(found.len(), 4);
            assert!(found
                .iter()
                .zip(wanted)
                .all(|(f, w)| f.sum == w && f.exact == Whole::of(w)));
        }
    }
}
