//! The records that are timed.

use oracle::phrase::Phrase;
use oracle::random::Random;

/// The counts of a phrase whose frames are evenly spread; it has an added stage where it has anchors.
#[derive(Clone, Copy)]
pub struct Shape {
    pub frames: usize,
    /// how many boundaries each stage has, and how many frames apart they are
    pub boundaries: (usize, usize),
    pub nuclei: usize,
    pub anchors: usize,
    pub columns: usize,
    pub candidates: usize,
    pub units: usize,
}

/// A recording as the trainer meets it: three seconds, a boundary every 120 ms, eight syllables, and six readings of four.
/// The first pass finds a path for each, so no second one runs.
pub fn typical() -> Phrase {
    evenly_spread(TYPICAL)
}

pub const TYPICAL: Shape = Shape {
    frames: 300,
    boundaries: (24, 12),
    nuclei: 8,
    anchors: 0,
    columns: 6,
    candidates: 6,
    units: 4,
};

/// Every count of the record at its limit. The frames are spread over the whole mask, so that the first pass finds a path
/// for each candidate; what weighs is the checking and the tables.
pub fn maximal() -> Phrase {
    evenly_spread(Shape {
        frames: 2048,
        boundaries: (64, 32),
        nuclei: 32,
        anchors: 64,
        columns: 64,
        candidates: 16,
        units: 16,
    })
}

/// The heaviest search: boundaries so dense that a unit has up to 38 places to end, as many units and candidates as a
/// record may have, and nuclei too few for the strict passes, so that all passes run, and so far apart that a second one
/// seldom cuts the look ahead short. Of one to fifteen nuclei, evenly spread, three take about the longest on both sides.
pub fn heaviest() -> Phrase {
    let mut p = evenly_spread(Shape {
        frames: 128,
        boundaries: (64, 2),
        nuclei: 3,
        anchors: 3,
        columns: 64,
        candidates: 16,
        units: 16,
    });
    p.nuclei = vec![1, 63, 125];
    p.anchors = p.nuclei.clone();
    p
}

/// Boundaries from frame 0 on, and nuclei and anchors in the middle of as many equal parts of the boundaries' reach. Scores
/// are drawn from −2 to 2, always the same ones; durations fall off from 200 ms to both sides.
pub fn evenly_spread(shape: Shape) -> Phrase {
    let (count, apart) = shape.boundaries;
    let boundaries: Vec<u32> = (0..count).map(|i| (i * apart) as u32).collect();
    let reach = (count - 1) * apart;
    let middles = |n: usize| -> Vec<u32> {
        (0..n)
            .map(|i| ((2 * i + 1) * reach / (2 * n)) as u32)
            .collect()
    };
    let added = shape.anchors > 0;
    let mut r = Random(7);
    let mut score = || (r.next() as f64 / u64::MAX as f64 * 4.0 - 2.0) as f32;
    let scores = (0..shape.nuclei + shape.anchors)
        .map(|_| (0..shape.columns).map(|_| score()).collect())
        .collect();
    let column = |candidate: usize, unit: usize| ((7 * unit + candidate) % shape.columns) as u8;
    let candidates = (0..shape.candidates)
        .map(|i| {
            (
                i as u32 + 1,
                (0..shape.units).map(|s| column(i, s)).collect(),
            )
        })
        .collect();
    let falling_off =
        |usual: f64| std::array::from_fn(|i| -((i as f64 + 6.0 - usual) / 15.0).powi(2));
    Phrase {
        mask: vec![true; shape.frames],
        nuclei: middles(shape.nuclei),
        anchors: middles(shape.anchors),
        added: if added { boundaries.clone() } else { vec![] },
        boundaries,
        columns: shape.columns,
        scores,
        candidates,
        per_frame: 0.02,
        insertion_llr: -1.0,
        unvoiced: -2.0,
        speech: Some((0, shape.frames as u32)),
        durations: [falling_off(20.0), falling_off(22.0)],
    }
}
