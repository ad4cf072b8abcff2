//! rates COUNT SEED: our speaking rate through the C interface against the original, and against a second way of finding the median gap,
//! bit for bit: on COUNT drawn lists of frames, on all short lists out of a few frames, and on lists of every count with gaps of two sizes.
//! A word of the lent frames that is changed differs too, and so does one beside them. Prints how many were compared, of which kinds they
//! were, and how many differ; the exit status is 0 only for none.

use oracle::arguments::count_and_seed;
use oracle::every::lists;
use oracle::ours;
use oracle::rates::{self, draw, two_sizes};
use oracle::tally::{conclude, Rates, Tally};
use oracle::wanted;

#[derive(Default)]
struct Calls {
    original: Tally,
    second_way: Tally,
    kinds: Rates,
}

impl Calls {
    fn compare(&mut self, frames: &[u32], default_s: f64) {
        let wanted = wanted::rate_s(frames, default_s);
        self.kinds.count(frames, &wanted);
        let got = ours::rate_s_in_zones(frames, default_s).map(|rate| rate.map(f64::to_bits));
        let input = || format!("rate_s {frames:?} {default_s}");
        self.original.compare(&Ok(wanted), &got, input);
        if wanted.is_ok() {
            let second = rates::rate_s(frames, default_s);
            self.second_way.compare(&Ok(second), &got, input);
        }
    }

    /// Prints the numbers of these lists; gives how many differ.
    fn report(&self, lists: &str) -> usize {
        println!("{} {lists}, {}", self.original.compared, self.kinds);
        println!(
            "{} differ from the original; by the second way {}, of which {} differ",
            self.original.differ, self.second_way.compared, self.second_way.differ
        );
        self.original.differ + self.second_way.differ
    }
}

fn main() {
    let (count, mut r) = count_and_seed("rates");
    let [mut short, mut sizes, mut drawn] = [(); 3].map(|()| Calls::default());
    for default_s in [0.2, -0.0] {
        for frames in lists(&[0, 1, 2, 3, 7, 8], 5) {
            short.compare(&frames, default_s);
        }
        for frames in two_sizes() {
            sizes.compare(&frames, default_s);
        }
    }
    for _ in 0..count {
        let (frames, default_s) = draw(&mut r);
        drawn.compare(&frames, default_s);
    }
    conclude(
        short.report("short lists")
            + sizes.report("lists with gaps of two sizes")
            + drawn.report("drawn lists"),
    );
}
