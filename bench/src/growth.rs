//! How the cost of a decode grows: the time of records in which one count is doubled, and doubled again, by that of the
//! record they come from.

use crate::records::{evenly_spread, Shape};
use crate::sides::{agreed_passes, decode_times};

const ROUNDS: usize = 5_000;

/// The first pass finds a path for each candidate, in this record and in all that come from it.
const BASE: Shape = Shape {
    frames: 128,
    boundaries: (16, 8),
    nuclei: 8,
    anchors: 0,
    columns: 6,
    candidates: 4,
    units: 2,
};

type Grow = fn(usize) -> Shape;

const GROWN: [(&str, Grow); 4] = [
    (
        "boundaries, with nuclei and frames: a longer phrase",
        |by| {
            let (count, apart) = BASE.boundaries;
            Shape {
                frames: BASE.frames * by,
                boundaries: (count * by, apart),
                nuclei: BASE.nuclei * by,
                ..BASE
            }
        },
    ),
    ("boundaries alone: a denser list", |by| {
        let (count, apart) = BASE.boundaries;
        Shape {
            boundaries: (count * by, apart / by),
            ..BASE
        }
    }),
    ("units of each candidate", |by| Shape {
        units: BASE.units * by,
        ..BASE
    }),
    ("candidates", |by| Shape {
        candidates: BASE.candidates * by,
        ..BASE
    }),
];

/// The least times of ours and of the original.
fn times(name: &str, shape: Shape) -> (f64, f64) {
    let phrase = evenly_spread(shape);
    let passes = agreed_passes(name, &phrase);
    assert!(passes.iter().all(|&p| p == 0), "{name}: {passes:?}");
    let (ours, original) = decode_times(&phrase, ROUNDS);
    (ours.least(), original.least())
}

pub fn print() {
    let base = times("base", BASE);
    println!("| Grown | Ours, ×2 | Ours, ×4 | Original, ×2 | Original, ×4 |");
    println!("|---|---|---|---|---|");
    for (name, grow) in GROWN {
        let [twice, fourfold] = [2, 4].map(|by| times(name, grow(by)));
        println!(
            "| {name} | {:.1} | {:.1} | {:.1} | {:.1} |",
            twice.0 / base.0,
            fourfold.0 / base.0,
            twice.1 / base.1,
            fourfold.1 / base.1,
        );
    }
}
