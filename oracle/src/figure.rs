//! A value in both ways: in f64, each operation rounded once, and as a whole number, exact. Costs, unit values and the sums of paths
//! are carried so, and their distance is the difference of the two.

use crate::phrase::Phrase;
use crate::whole::Whole;

#[derive(Clone, Copy, Debug, PartialEq)]
pub struct Figure {
    pub sum: f64,
    pub exact: Whole,
}

/// What a stretch of frames is charged for.
#[derive(Clone, Copy, Debug, Default, PartialEq, Eq)]
pub struct Counts {
    pub speech: u32,
    pub nuclei: u32,
}

impl Counts {
    /// Of the frames from where these end to where the others do.
    pub fn up_to(self, end: Counts) -> Counts {
        Counts {
            speech: end.speech - self.speech,
            nuclei: end.nuclei - self.nuclei,
        }
    }
}

impl Figure {
    /// The filler cost.
    pub fn cost(p: &Phrase, counts: Counts) -> Figure {
        let Counts { speech, nuclei } = counts;
        let (frames, inserted) = (f64::from(speech), f64::from(nuclei));
        let exact = Whole::of(p.per_frame).times(speech) - Whole::of(p.insertion_llr).times(nuclei);
        Figure {
            sum: p.per_frame * frames - p.insertion_llr * inserted,
            exact,
        }
    }

    /// The value of a unit: its score and its duration, added to one another first.
    pub fn unit(score: f32, duration: f64) -> Figure {
        let score = f64::from(score);
        Figure {
            sum: score + duration,
            exact: Whole::of(score) + Whole::of(duration),
        }
    }

    /// The value of a start with this cost.
    pub fn start(cost: Figure) -> Figure {
        Figure {
            sum: -cost.sum,
            exact: -cost.exact,
        }
    }

    pub fn plus(self, unit: Figure) -> Figure {
        Figure {
            sum: self.sum + unit.sum,
            exact: self.exact + unit.exact,
        }
    }

    pub fn minus(self, cost: Figure) -> Figure {
        Figure {
            sum: self.sum - cost.sum,
            exact: self.exact - cost.exact,
        }
    }

    /// By how much the f64 sum is above the exact one.
    pub fn error(self) -> Whole {
        Whole::of(self.sum) - self.exact
    }
}
