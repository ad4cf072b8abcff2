//! Phrases built to be bad: each step of a path rounds by half a place, and all in the same direction. The ones with a fixed result have
//! nothing drawn in them.
//!
//! A step errs by exactly half a place where the exact result is a tie and the even neighbour is the one wanted. After such a step the sum is
//! an even number of places, so that the next step with the same low digits ties in the same direction.

use crate::figure::{Counts, Figure};
use crate::phrase::Phrase;
use crate::random::Random;
use crate::track::{Track, PLACE};
use crate::whole::Whole;

/// 1,000 less so many times 2^-29: the digits below are the ones that a gap of one frame loses.
fn just_under_1000(places: usize) -> f64 {
    1000.0 - places as f64 / (1u64 << 29) as f64
}

/// How many of those per-frame costs are tried for a fixed phrase.
const TRIED: usize = 32;

/// The track that errs most upwards.
fn worst(of: impl Fn(f64) -> Track) -> Track {
    let tracks = (1..TRIED).map(|t| of(just_under_1000(t)));
    tracks.max_by_key(|track| track.run.error()).unwrap()
}

/// As long as a path can be: a lead of speech, 63 units of about −2,000,000 each, and the end. From 2^26 up, where half of the steps are,
/// half a place is 2^-27. Its path has far more units than the candidate. With all 63 steps and the end at half a place of the largest sum
/// that they can lead to, and all figures rounded by half a place too, it would be 2^-21.53.
pub fn long() -> Phrase {
    let track = |per_frame| {
        let mut track = Track::start(per_frame, 1560, 12);
        (0..63).for_each(|_| _ = track.unit(-1.0e6, true));
        track.end(1);
        track
    };
    worst(track).phrase(16)
}

/// The path that is returned: 16 units, as many as a candidate may have, right after the lead, and then the other 47 gaps, each of one frame
/// of speech, while the sum is above 2^25. The first gap has 81 frames, so that no unit ends behind it.
pub fn returned() -> Phrase {
    let track = |per_frame| {
        let mut track = Track::start(per_frame, 1780, 11);
        (0..16).for_each(|_| _ = track.unit(-1.0e6, true));
        track.gap(81, 1);
        (0..46).for_each(|_| _ = track.gap(1, 1));
        track.end(1);
        track
    };
    worst(track).phrase(16)
}

/// Two paths over one phrase: that of the track, which is returned, and another.
struct Pair {
    track: Track,
    other: Figure,
}

/// The scores of the returned path's units, of the other one's first unit and of the others but its last. What the other path saves by fewer
/// gaps is taken off its units, and what its first unit is worth more is taken off its last, so that units of the first path followed by units
/// of the other are worse than either.
const SCORE: f32 = -995_000.0;
const OTHER_FIRST: f32 = -992_500.0;
const OTHER: f32 = -997_100.0;

impl Pair {
    /// The returned path takes 16 units where the other has gaps.
    fn first_half(per_frame: f64) -> Pair {
        let track = Track::start(per_frame, 1670, 11);
        let other = track.run;
        let mut pair = Pair { track, other };
        for _ in 0..16 {
            let cost = pair.track.unit(SCORE, true);
            pair.other = pair.other.minus(cost);
        }
        pair
    }

    /// The other path takes a unit of this length where the first has gaps, each with one frame of speech.
    fn unit(&mut self, length: usize, score: f32, gaps: usize) {
        self.track.anchor(score);
        (1..gaps).for_each(|_| _ = self.track.gap(1, 1));
        self.track.gap(length + 1 - gaps, 1);
    }

    /// The last unit of the other path, worth just so much that its sum stays below the first's.
    fn last_unit(&mut self, gaps: usize) {
        let mut first = self.track.run;
        let (speech, nuclei) = (1, 0);
        let frame = Figure::cost(&self.track.phrase, Counts { speech, nuclei });
        (0..gaps).for_each(|_| first = first.minus(frame));
        let after = |score: f32, d: f64| self.other.plus(Figure::unit(score, d));
        // a whole number near the score that makes the sums equal, and a duration for the rest
        let score = (first.sum - self.other.sum + 999_990.0).round() as f32;
        let even = first.sum - self.other.sum - f64::from(score);
        let mut durations = (-4096..4096).rev().map(|t| even + f64::from(t) * PLACE);
        let duration = durations
            .find(|&d| after(score, d).sum < first.sum)
            .unwrap();
        self.other = after(score, duration);
        let length = self.track.set(duration);
        self.unit(length, score, gaps);
    }

    /// By how much the other path's exact sum is above.
    fn advantage(&self) -> Whole {
        self.other.exact - self.track.run.exact
    }
}

/// The returned path has its units first, and each of 47 gaps behind them takes it up by half a place of the largest sums. The other has
/// the gaps first and then its units, each of which takes it down.
fn two_paths(per_frame: f64) -> Pair {
    let mut pair = Pair::first_half(per_frame);
    for i in 0..15 {
        let score = if i == 0 { OTHER_FIRST } else { OTHER };
        let (length, sum) = pair.track.furthest(pair.other, score, false);
        pair.other = sum;
        pair.unit(length, score, 3);
    }
    pair.last_unit(2);
    pair
}

/// The phrase of two paths in which the one passed over has the larger exact sum by the most. Each unit has its score only as the unit of its
/// number on either path, and a worse one else, so that only units in order count.
pub fn passed_over() -> Phrase {
    let pairs = (1..TRIED).map(|t| two_paths(just_under_1000(t)));
    let pair = pairs.max_by_key(Pair::advantage).unwrap();
    let mut p = pair.track.phrase(16);
    p.columns = 16;
    p.candidates = vec![(1, (0..16).collect())];
    for (i, row) in p.scores.iter_mut().enumerate() {
        let score = row[0];
        row.resize(16, 0.0);
        row.fill(-1.0e6);
        // the nucleus of the lead has the first row
        row[(i + 15) % 16] = score;
    }
    p
}

/// A lead, units and gaps of drawn numbers, scores and direction, the low digits chosen as above. The first step is a unit, for a stage
/// has an anchor.
pub fn drawn(r: &mut Random) -> Phrase {
    let (lead, length) = (r.below(1900), r.pick(&[7, 12, 16]));
    let mut track = Track::start(just_under_1000(r.below(1 << 12)), lead, length);
    let (above, gaps) = (r.once_in(2), r.pick(&[2, 3, 10, 1000]));
    let (units, steps) = (r.pick(&[16, 16, 63]), r.between(1, 63));
    let score = r.pick(&[-1.0e6f32, -1.0e6, -900_000.0, 1.0e6]);
    for step in 0..steps {
        if step == 0 || track.phrase.anchors.len() < units && !r.once_in(gaps) {
            let nearer_0 = r.below(100) as f32 / 16.0;
            track.unit(score - nearer_0.copysign(score), above);
        } else {
            track.gap(if r.once_in(20) { 81 } else { 1 }, 1);
        }
    }
    track.end(r.below(3));
    let units = track.phrase.anchors.len().min(16);
    let mut p = track.phrase(units);
    if r.once_in(2) {
        onto_nuclei(&mut p);
    }
    p
}

/// The same stage as the nuclei's, where there are not too many anchors. An insertion costs nothing, so the sums stay.
fn onto_nuclei(p: &mut Phrase) {
    if p.anchors.len() < 32 {
        p.nuclei = std::mem::take(&mut p.anchors);
        p.boundaries = std::mem::take(&mut p.added);
        p.scores.remove(0);
        p.durations.swap(0, 1);
    }
}

#[cfg(test)]
mod tests {
    use super::*;
    use crate::distance::{Distances, Effort};
    use crate::entry::ENTRY_WORDS;
    use crate::maker::encode;
    use crate::ours::{Desk, WORK_CELLS};

    fn judged(p: &Phrase) -> Distances {
        let words = Desk::default().decode(&encode(p), WORK_CELLS, WORK_CELLS, ENTRY_WORDS);
        let mut distances = Distances::default();
        let effort = Effort {
            drawn: 0,
            furthest: true,
        };
        let words = words.unwrap().unwrap();
        distances.record(p, &words, &mut Random(1), effort).unwrap();
        distances
    }

    #[test]
    fn as_bad_as_they_are_built_to_be() {
        assert_eq!(judged(&long()).any().to_string(), "2^-21.54");
        assert_eq!(judged(&returned()).returned.to_string(), "2^-22.22");
        assert_eq!(judged(&passed_over()).advantage.to_string(), "2^-22.13");
    }
}
