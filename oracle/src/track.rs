//! A phrase in the making along one path of it, so that figures can be chosen on the way: whatever a step adds, the sum up to it is known
//! in f64 and exactly.

use crate::figure::{Counts, Figure};
use crate::phrase::Phrase;
use crate::whole::Whole;

/// The last place of an f64 from 2^19 up, as durations near −1,000,000 are.
pub const PLACE: f64 = 1.0 / (1u64 << 33) as f64;
/// How many of its last places a duration is tried with: two places of the largest sums.
const PLACES: usize = 256;
/// The most frames of a mask.
const MOST_FRAMES: usize = 2048;

pub struct Track {
    pub phrase: Phrase,
    /// the sum up to the last boundary
    pub run: Figure,
    /// unit lengths whose duration is chosen already, and those to choose one for, the next one last
    used: Vec<usize>,
    unused: Vec<usize>,
}

impl Track {
    /// A lead of speech and the start behind it. The stage is the added one, for it may have 64 anchors; a nucleus in the lead makes it
    /// searched. An insertion costs nothing. Durations are chosen for this length first, then for shorter ones, which leaves the shortest to the
    /// many units at the end of a path, and only then for longer ones.
    pub fn start(per_frame: f64, lead: usize, length: usize) -> Track {
        let phrase = Phrase {
            mask: vec![true; lead],
            nuclei: vec![0],
            boundaries: Vec::new(),
            anchors: Vec::new(),
            added: vec![lead as u32],
            columns: 1,
            scores: vec![vec![0.0]],
            candidates: Vec::new(),
            per_frame,
            insertion_llr: 0.0,
            unvoiced: 0.0,
            speech: Some((0, 1)),
            durations: [[0.0; 75], [-1.0e6; 75]],
        };
        let speech = lead as u32;
        let cost = Figure::cost(&phrase, Counts { speech, nuclei: 1 });
        Track {
            phrase,
            run: Figure::start(cost),
            used: Vec::new(),
            unused: (length + 1..=80).rev().chain(6..=length).collect(),
        }
    }

    fn last(&self) -> u32 {
        self.phrase.added[self.phrase.added.len() - 1]
    }

    /// Goes so many frames on, of which the first few have speech. Gives the cost of the gap, were it one.
    fn advance(&mut self, frames: usize, speech: usize) -> Figure {
        let before = self.phrase.mask.len();
        let here = self.last() as usize;
        let room = MOST_FRAMES.saturating_sub(before).min(frames);
        let new = (0..room).map(|i| i < speech);
        self.phrase.mask.extend(new);
        self.phrase.added.push((here + frames) as u32);
        let speech = self.phrase.mask[before..].iter().filter(|&&s| s).count() as u32;
        Figure::cost(&self.phrase, Counts { speech, nuclei: 0 })
    }

    /// A gap; gives its cost.
    pub fn gap(&mut self, frames: usize, speech: usize) -> Figure {
        let cost = self.advance(frames, speech);
        self.run = self.run.minus(cost);
        cost
    }

    /// A length whose duration gains the most: one in use, or the next, whose duration is chosen with it.
    fn choose(&mut self, gain: impl Fn(f64) -> Whole) -> usize {
        let durations = (0..PLACES).map(|t| -1.0e6 + t as f64 * PLACE);
        let fresh = durations.max_by_key(|&d| gain(d)).unwrap();
        let gained = |track: &Track, length: &usize| gain(track.phrase.durations[1][length - 6]);
        let best = self.used.iter().copied().max_by_key(|l| gained(self, l));
        match best {
            Some(length) if self.unused.is_empty() || gained(self, &length) >= gain(fresh) => {
                length
            }
            _ => self.set(fresh),
        }
    }

    /// The next length, with this duration.
    pub fn set(&mut self, duration: f64) -> usize {
        let length = self.unused.pop().expect("a length without a duration");
        self.phrase.durations[1][length - 6] = duration;
        self.used.push(length);
        length
    }

    /// An anchor at the last boundary, with this score.
    pub fn anchor(&mut self, score: f32) {
        self.phrase.anchors.push(self.last());
        self.phrase.scores.push(vec![score]);
    }

    /// A unit with this score whose duration takes the sum as far above the exact one as it can, or below it. Its first frame alone has
    /// speech. Gives the cost of the gap in its place.
    pub fn unit(&mut self, score: f32, above: bool) -> Figure {
        let (length, sum) = self.furthest(self.run, score, above);
        self.run = sum;
        self.anchor(score);
        self.advance(length, 1)
    }

    /// The length of such a unit on top of any sum, and the sum with it.
    pub fn furthest(&mut self, before: Figure, score: f32, above: bool) -> (usize, Figure) {
        let with = |d: f64| before.plus(Figure::unit(score, d));
        let length = self.choose(|d| {
            let error = with(d).error();
            if above {
                error
            } else {
                -error
            }
        });
        (length, with(self.phrase.durations[1][length - 6]))
    }

    /// Ends the path after so many frames of speech more, where the mask has room for them.
    pub fn end(&mut self, frames: usize) {
        let before = self.phrase.mask.len();
        let all = (before + frames).min(MOST_FRAMES).max(before);
        self.phrase.mask.resize(all, true);
        let speech = (all - before) as u32;
        let cost = Figure::cost(&self.phrase, Counts { speech, nuclei: 0 });
        self.run = self.run.minus(cost);
    }

    /// The phrase, with a candidate of so many units.
    pub fn phrase(mut self, units: usize) -> Phrase {
        self.phrase.candidates = vec![(1, vec![0; units])];
        self.phrase
    }
}
