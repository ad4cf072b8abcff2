//! Times of two sides, interleaved.

use std::hint::black_box;
use std::time::Instant;

/// One side's times of single turns, in seconds.
pub struct Times(Vec<f64>);

impl Times {
    /// The quickest: other work on the machine can only add to a time.
    pub fn least(&self) -> f64 {
        self.0[0]
    }

    pub fn median(&self) -> f64 {
        self.0[self.0.len() / 2]
    }

    fn of(mut times: Vec<f64>) -> Times {
        times.sort_by(f64::total_cmp);
        Times(times)
    }
}

/// What the turns of either side took, in seconds.
#[derive(Default)]
pub struct Rounds {
    ours: Vec<f64>,
    original: Vec<f64>,
}

impl Rounds {
    /// One turn of either side, the one that goes first changing from round to round.
    pub fn run<A, B>(&mut self, ours: impl FnOnce() -> A, original: impl FnOnce() -> B) {
        if self.ours.len() % 2 == 0 {
            self.ours.push(seconds(ours));
            self.original.push(seconds(original));
        } else {
            self.original.push(seconds(original));
            self.ours.push(seconds(ours));
        }
    }

    /// The times of ours and of the original.
    pub fn times(self) -> (Times, Times) {
        (Times::of(self.ours), Times::of(self.original))
    }
}

/// The time of a turn. Its answer is given back to the heap outside the timed part.
fn seconds<Answer>(turn: impl FnOnce() -> Answer) -> f64 {
    let begin = Instant::now();
    let answer = black_box(turn());
    let seconds = begin.elapsed().as_secs_f64();
    drop(answer);
    seconds
}
