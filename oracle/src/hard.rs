//! Phrases whose sums are hard to round: figures with all their digits in use, at the limits, of all sizes down to the least f64 above 0,
//! and phrases in which all paths have nearly the same sum.

use crate::generate::{many_units, phrase, Kind};
use crate::phrase::Phrase;
use crate::random::Random;

/// How the figures of a phrase are drawn.
#[derive(Clone, Copy, PartialEq)]
enum Style {
    /// just within the limits
    Limits,
    /// any exponent, all digits in use
    Exponents,
    Tiny,
    /// a unit is worth what a gap in its place costs, but for the last digits
    Even,
    /// each figure in one of the first three ways
    Mixed,
}

const STYLES: [Style; 5] = [
    Style::Limits,
    Style::Exponents,
    Style::Tiny,
    Style::Even,
    Style::Mixed,
];

/// Of either sign.
fn signed(r: &mut Random, size: f64) -> f64 {
    if r.once_in(2) {
        size
    } else {
        -size
    }
}

/// The limit, or up to 2^20 places of its last digit below it.
fn just_within(r: &mut Random, limit: f64) -> f64 {
    let places = r.next() >> r.between(44, 63);
    f64::from_bits(limit.to_bits() - places)
}

/// All 53 digits drawn, and the exponent from the limit's down to the least.
fn any_size(r: &mut Random, limit: f64) -> f64 {
    let down = if r.once_in(3) { 1074 } else { 60 };
    let exponent = (limit.to_bits() >> 52) as usize;
    let exponent = exponent.saturating_sub(1 + r.below(down)) as u64;
    f64::from_bits(exponent << 52 | r.next() >> 12)
}

fn tiny(r: &mut Random) -> f64 {
    let any = f64::from_bits(r.next() >> r.between(12, 63));
    r.pick(&[5e-324, 1.5e-323, f64::MIN_POSITIVE, 1e-310, 1e-30, 0.0, any])
}

/// A figure from 0 to the limit.
fn size(r: &mut Random, style: Style, limit: f64) -> f64 {
    let style = match style {
        Style::Mixed => r.pick(&STYLES[..3]),
        style => style,
    };
    match style {
        Style::Limits => just_within(r, limit),
        Style::Tiny => tiny(r),
        _ => any_size(r, limit),
    }
}

/// An f32 within ±1,000,000 with all its digits in use; tiny ones become f32 subnormals now and then.
fn score(r: &mut Random, style: Style) -> f32 {
    if style == Style::Tiny && r.once_in(2) {
        return f32::from_bits(r.next() as u32 & 0x8000_000f);
    }
    let places = r.next() as u32 >> r.between(12, 31);
    let x = match style {
        Style::Limits => f64::from(f32::from_bits(1.0e6f32.to_bits() - places)),
        _ => size(r, style, 1.0e6),
    };
    signed(r, x) as f32
}

/// New figures for a phrase, one way for all.
fn figures(r: &mut Random, p: &mut Phrase, style: Style) {
    let (x, y) = (size(r, style, 1000.0), size(r, style, 1000.0));
    (p.per_frame, p.insertion_llr) = (signed(r, x), signed(r, y));
    // often no score above 0, for with the durations those give the largest sums
    let fall = r.once_in(2);
    let mut score = || {
        let x = score(r, style);
        if fall {
            -x.abs()
        } else {
            x
        }
    };
    p.unvoiced = score();
    p.scores.iter_mut().flatten().for_each(|s| *s = score());
    for d in p.durations.iter_mut().flatten() {
        *d = -size(r, style, 1.0e6);
    }
}

/// A unit of L frames adds score − x L, and the gap in its place score − x L too, as the insertion is a score: all paths tie but for their
/// roundings and the last digits of some figures.
fn even(r: &mut Random, p: &mut Phrase) {
    let x = size(r, Style::Exponents, 1000.0);
    let same = (signed(r, 1.0) * any_size(r, 1000.0)) as f32;
    (p.per_frame, p.insertion_llr) = (x, f64::from(same));
    p.unvoiced = r.pick(&[0.0, 1.0e-9, -1.0e-9]);
    let nudge = r.pick(&[1, 40, 1000]);
    for s in p.scores.iter_mut().flatten() {
        let down = u32::from(same != 0.0 && r.once_in(nudge));
        *s = f32::from_bits(same.to_bits() - down);
    }
    for table in &mut p.durations {
        for (i, d) in table.iter_mut().enumerate() {
            let places = r.below(3) as u64;
            *d = -f64::from_bits((x * (i + 6) as f64).to_bits().saturating_sub(places));
        }
    }
}

/// Scores for so many columns, and candidates of every number of units.
fn recast(r: &mut Random, p: &mut Phrase, columns: usize) {
    p.columns = columns;
    p.scores = vec![vec![0.0; columns]; p.nuclei.len() + p.anchors.len()];
    let candidates = 1..=r.between(1, 6) as u32;
    p.candidates = candidates
        .map(|id| {
            let k = if r.once_in(3) {
                r.between(1, 16)
            } else {
                r.between(1, 4)
            };
            (id, (0..k).map(|_| r.below(columns) as u8).collect())
        })
        .collect();
}

/// Boundaries one step apart mostly after a lead of speech, and an anchor in most of the stretches.
fn stage(
    r: &mut Random,
    lead: u32,
    most_bounds: usize,
    most_anchors: usize,
) -> (Vec<u32>, Vec<u32>) {
    let step = r.pick(&[1, 2, 3, 6, 6, 6, 8, 20]);
    let mut bounds = vec![lead];
    let mut anchors = Vec::new();
    let skipped = r.pick(&[2, 5, 100]);
    for _ in 1..r.between(1, most_bounds) {
        let from = bounds[bounds.len() - 1];
        let step = if r.once_in(6) {
            r.pick(&[1, 6, 7, 81])
        } else {
            step
        };
        bounds.push(from + step);
        if !r.once_in(skipped) && anchors.len() < most_anchors {
            anchors.push(from + r.below(step as usize) as u32);
        }
    }
    bounds.retain(|&b| b <= 4095);
    anchors.retain(|&a| a <= 4095);
    (bounds, anchors)
}

/// A phrase with a long lead, many boundaries and a full mask, or part of it.
fn long(r: &mut Random, most: usize) -> Phrase {
    let lead = r.pick(&[0, 7, 300, 1500, 1900]);
    let (boundaries, nuclei) = stage(r, lead, most, most.min(32));
    let (mut added, mut anchors) = stage(r, lead, most, most);
    if anchors.is_empty() || r.once_in(2) {
        (added, anchors) = (Vec::new(), Vec::new());
    }
    let last = boundaries[boundaries.len() - 1] as usize;
    let f = (last + r.below(40)).min(2048);
    let quiet = r.pick(&[0, 0, 50]);
    let mut p = many_units(r);
    p.mask = (0..f).map(|_| quiet == 0 || !r.once_in(quiet)).collect();
    p.speech = (!r.once_in(20)).then_some((0, 100));
    (p.boundaries, p.nuclei, p.added, p.anchors) = (boundaries, nuclei, added, anchors);
    p
}

/// The figures of a phrase drawn anew.
fn harden(r: &mut Random, p: &mut Phrase) {
    match r.pick(&STYLES) {
        Style::Even => even(r, p),
        style => figures(r, p, style),
    }
}

/// A hard phrase, small mostly.
pub fn hard(r: &mut Random) -> Phrase {
    let columns = r.pick(&[1, 2, 3, 8]);
    let mut p = match r.below(16) {
        0..=6 => phrase(r, Kind::Tiny),
        7..=9 => phrase(r, Kind::Typical),
        10 | 11 => many_units(r),
        12..=14 => long(r, 12),
        _ => long(r, 64),
    };
    recast(r, &mut p, columns);
    harden(r, &mut p);
    p
}

/// Every count at its limit.
pub fn hard_maximal(r: &mut Random) -> Phrase {
    let mut p = phrase(r, Kind::Maximal);
    harden(r, &mut p);
    p
}

#[cfg(test)]
mod tests {
    use super::*;
    use crate::bad;
    use crate::maker::encode;
    use crate::refusal::refusal;

    /// None of these is refused, or it would try nothing.
    #[test]
    fn all_are_accepted() {
        let mut r = Random(9);
        for i in 0..20_000 {
            let p = match i % 100 {
                0 => hard_maximal(&mut r),
                1 => bad::drawn(&mut r),
                _ => hard(&mut r),
            };
            assert_eq!(refusal(&encode(&p), 1088, 1088, 54 * 16), None);
        }
    }
}
