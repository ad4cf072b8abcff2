//! Phrases of every kind that document 01 accepts: tiny to maximal, ties likely, both zeros, subnormals, negative
//! figures, frames past the mask, nuclei on boundaries, no speech, with and without an added stage, sums beyond the clamp. And
//! phrases in which many units fit, and phrases whose sums their llr does not tell apart.

use crate::phrase::Phrase;
use crate::random::Random;

/// How large a phrase is made, and how its figures are drawn.
#[derive(Clone, Copy, Debug, PartialEq, Eq)]
pub enum Kind {
    /// A few boundaries: small enough to write out every path.
    Tiny,
    Typical,
    /// Every count at its limit.
    Maximal,
}

/// Strictly increasing frames below `top`, at most `n` of them.
fn frames(r: &mut Random, n: usize, top: usize) -> Vec<u32> {
    let mut list: Vec<u32> = (0..n).map(|_| r.below(top) as u32).collect();
    list.sort_unstable();
    list.dedup();
    list
}

/// Boundaries a few frames apart, so that units of admitted length are likely.
fn boundaries(r: &mut Random, n: usize) -> Vec<u32> {
    let step = r.pick(&[2, 4, 6, 7, 12, 30, 80, 81]);
    let mut at = r.below(12) as u32;
    let mut list = Vec::new();
    for _ in 0..n {
        if at > 4095 {
            break;
        }
        list.push(at);
        at += if r.once_in(3) {
            r.between(1, 90) as u32
        } else {
            step
        };
    }
    list
}

/// Frames that units could hold: in most stretches between neighbouring boundaries one frame below `top`.
fn between_bounds(r: &mut Random, bounds: &[u32], most: usize, top: usize) -> Vec<u32> {
    let stretches = bounds.windows(2).filter(|w| (w[0] as usize) < top);
    let mut list: Vec<u32> = stretches
        .filter_map(|w| {
            let at = r.between(w[0] as usize, (w[1] as usize - 1).min(top - 1)) as u32;
            (!r.once_in(4)).then_some(at)
        })
        .take(most)
        .collect();
    list.dedup();
    list
}

/// Nuclei or anchors for these boundaries: between them, on them, or anywhere.
fn anchors_over(r: &mut Random, bounds: &[u32], most: usize, top: usize) -> Vec<u32> {
    match r.below(6) {
        0 => frames(r, most, top),
        1 => bounds
            .iter()
            .copied()
            .filter(|_| r.once_in(2))
            .take(most)
            .collect(),
        _ => between_bounds(r, bounds, most, top),
    }
}

/// A figure within ±limit: from a handful of values, so that ties are likely, or anything.
fn figure(r: &mut Random, limit: f64) -> f64 {
    match r.below(8) {
        0 => 0.0,
        1 => -0.0,
        2 => r.pick(&[1.0, -1.0, 0.5, -0.25, 0.1, -0.3]),
        3 => r.pick(&[
            f64::MIN_POSITIVE,
            -f64::from_bits(1),
            f64::from_bits(3),
            1e-310,
        ]),
        4 => r.pick(&[limit, -limit]),
        5 => (r.below(7) as f64 - 3.0) * 0.1,
        6 => (r.next() as f64 / u64::MAX as f64 - 0.5) * 2.0,
        _ => (r.next() as f64 / u64::MAX as f64 - 0.5) * 2.0 * limit,
    }
}

fn score(r: &mut Random, limit: f64) -> f32 {
    if r.once_in(12) {
        return r.pick(&[
            f32::from_bits(1),
            -f32::from_bits(7),
            f32::MIN_POSITIVE,
            -0.0,
        ]);
    }
    (figure(r, limit) as f32).clamp(-1.0e6, 1.0e6)
}

pub fn phrase(r: &mut Random, kind: Kind) -> Phrase {
    let maximal = kind == Kind::Maximal;
    let most = |r: &mut Random, tiny: usize, typical: usize, all: usize| match kind {
        Kind::Tiny => r.between(tiny / 2, tiny),
        Kind::Typical => r.below(typical + 1),
        Kind::Maximal => all,
    };
    let f = match kind {
        Kind::Tiny => r.between(10, 70),
        Kind::Typical => r.below(400),
        Kind::Maximal => 2048,
    };
    let quiet = r.pick(&[0, 0, 2, 5, 40]);
    let mask: Vec<bool> = (0..f).map(|_| quiet == 0 || !r.once_in(quiet)).collect();
    let top = (f + r.pick(&[0, 0, 0, 20])).clamp(1, 4096);
    let (n, b) = (most(r, 4, 8, 32), most(r, 5, 20, 64));
    let bounds = boundaries(r, b);
    let nuclei = anchors_over(r, &bounds, n, top);
    let (a, d) = (most(r, 4, 10, 64), most(r, 5, 20, 64));
    let added = boundaries(r, d);
    let anchors = if r.once_in(2) {
        Vec::new()
    } else {
        anchors_over(r, &added, a, top)
    };
    let added = if anchors.is_empty() {
        Vec::new()
    } else {
        added
    };
    let columns = if maximal { 64 } else { r.between(1, 5) };
    // one limit for all figures of a phrase: small ones make ties, large ones reach the clamp
    let limit = r.pick(&[0.0, 1.0, 1.0, 50.0, 1.0e6]);
    let scores = (0..nuclei.len() + anchors.len())
        .map(|_| (0..columns).map(|_| score(r, limit)).collect())
        .collect();
    let m = if maximal { 16 } else { r.between(1, 4) };
    let most_units = if kind == Kind::Tiny { 4 } else { 16 };
    let candidates = (0..m)
        .map(|i| {
            let k = if r.once_in(4) {
                r.between(1, most_units)
            } else {
                r.between(1, 3)
            };
            let k = if maximal { r.between(8, 16) } else { k };
            let id = (i as u32).wrapping_mul(0x9e37_79b9).wrapping_add(7);
            (id, (0..k).map(|_| r.below(columns) as u8).collect())
        })
        .collect();
    let table = |r: &mut Random| std::array::from_fn(|_| -figure(r, limit.max(1.0)).abs());
    let speech = if r.once_in(12) {
        None
    } else {
        let (x, y) = (r.below(top) as u32, r.below(top) as u32);
        Some((x.min(y), x.max(y)))
    };
    Phrase {
        mask,
        nuclei,
        boundaries: bounds,
        anchors,
        added,
        columns,
        scores,
        candidates,
        per_frame: figure(r, limit.min(1000.0)),
        insertion_llr: figure(r, limit.min(1000.0)),
        unvoiced: score(r, limit),
        speech,
        durations: [table(r), table(r)],
    }
}

/// A stage in which up to some twenty units fit: boundaries mostly 6 frames apart or a few more, and anchors in many of the stretches
/// between them, now and then two in one.
fn chain(r: &mut Random, most_anchors: usize) -> (Vec<u32>, Vec<u32>) {
    let (barred, empty) = (r.pick(&[3, 12, 12, 60]), r.pick(&[2, 6, 60]));
    let mut bounds = vec![r.below(9) as u32];
    let mut anchors = Vec::new();
    for _ in 0..r.below(27) {
        let step = if r.once_in(barred) {
            r.pick(&[1, 5, 80, 81])
        } else {
            r.pick(&[6, 6, 7, 9])
        };
        let from = bounds[bounds.len() - 1];
        bounds.push(from + step);
        if !r.once_in(empty) {
            anchors.push(from + r.below(step as usize) as u32);
        }
        if step > 1 && r.once_in(4 * barred) {
            anchors.extend([from, from + step - 1]);
        }
    }
    anchors.sort_unstable();
    anchors.dedup();
    anchors.truncate(most_anchors);
    (bounds, anchors)
}

/// A phrase whose stages have from no units to more than 16, each stage with its own. How many fit does not hang on the figures, which
/// are all 0; mostly the mask reaches past the last anchor.
pub fn many_units(r: &mut Random) -> Phrase {
    let (mut boundaries, nuclei) = chain(r, 32);
    let (mut added, mut anchors) = chain(r, 64);
    for bounds in [&mut boundaries, &mut added] {
        if r.once_in(16) {
            bounds.clear();
        }
    }
    if anchors.is_empty() || r.once_in(8) {
        (added, anchors) = (Vec::new(), Vec::new());
    }
    let f = r.pick(&[60, 250, 250, 800]);
    let quiet = r.pick(&[0, 0, 0, 30]);
    let mask = (0..f).map(|_| quiet == 0 || !r.once_in(quiet)).collect();
    Phrase {
        mask,
        columns: 1,
        scores: vec![vec![0.0]; nuclei.len() + anchors.len()],
        nuclei,
        boundaries,
        anchors,
        added,
        candidates: vec![(1, vec![0])],
        per_frame: 0.0,
        insertion_llr: 0.0,
        unvoiced: 0.0,
        speech: (!r.once_in(4)).then_some((0, 1)),
        durations: [[0.0; 75]; 2],
    }
}

/// What the sums of a phrase are made of.
struct Figures {
    scores: &'static [f32],
    durations: &'static [f64],
    per_frame: &'static [f64],
}

/// Half of the least f32 above 0: the largest number that narrows to 0.
pub const HALF_LEAST: f64 = f64::from_bits(0x3690 << 48);

/// Sums above the clamp and below it, sums that are one f32, sums that narrow to a zero, and zeros. A sum is −0 only where all that is
/// added is.
const ALIKE: [Figures; 5] = [
    Figures {
        scores: &[1.0e6, 999_999.0, 600_000.0],
        durations: &[0.0, -1.0],
        per_frame: &[-1000.0, -1.0, 0.0],
    },
    Figures {
        scores: &[-1.0e6, -999_999.0, -600_000.0],
        durations: &[0.0, -1.0, -1.0e6],
        per_frame: &[1000.0, 1.0, 0.0],
    },
    Figures {
        scores: &[0.0, 1.0e-9, -1.0e-9, 1.0e-12],
        durations: &[-1.0],
        per_frame: &[0.0, 1.0e-12],
    },
    Figures {
        scores: &[0.0, -0.0],
        durations: &[-HALF_LEAST, -1.0e-60, -f64::MIN_POSITIVE, -0.0],
        per_frame: &[0.0, 1.0e-310, -1.0e-60],
    },
    Figures {
        scores: &[-0.0, -0.0, -0.0, 0.0],
        durations: &[-0.0, -0.0, -0.0, 0.0],
        per_frame: &[0.0, -0.0],
    },
];

/// A few boundaries 10 frames apart, and a frame in most of the stretches between them.
fn even_stage(r: &mut Random) -> (Vec<u32>, Vec<u32>) {
    let first = r.below(9) as u32;
    let stretches = r.between(1, 3) as u32;
    let bounds: Vec<u32> = (0..=stretches).map(|i| first + 10 * i).collect();
    let stretches = bounds[1..].iter().filter(|_| !r.once_in(4));
    let anchors: Vec<u32> = stretches.map(|to| to - 5).collect();
    (bounds, anchors)
}

/// One unit mostly, and up to more than have a path.
fn few_units(r: &mut Random, columns: usize) -> Vec<u8> {
    let k = r.pick(&[1, 1, 1, 2, 2, 3, 7]);
    (0..k).map(|_| r.below(columns) as u8).collect()
}

/// Durations of the units that fit between boundaries of an even stage; those of all others are 0.
fn even_durations(r: &mut Random, from: &[f64]) -> [f64; 75] {
    let mut table = [0.0; 75];
    for frames in [10, 20, 30] {
        table[frames - 6] = r.pick(from);
    }
    table
}

/// A phrase whose candidates have sums that differ where llr does not, or that llr does not show.
pub fn alike(r: &mut Random) -> Phrase {
    let figures = &ALIKE[r.below(ALIKE.len())];
    let (boundaries, nuclei) = even_stage(r);
    let (mut added, mut anchors) = even_stage(r);
    if anchors.is_empty() || r.once_in(2) {
        (added, anchors) = (Vec::new(), Vec::new());
    }
    let columns = 3;
    let scores = (0..nuclei.len() + anchors.len())
        .map(|_| (0..columns).map(|_| r.pick(figures.scores)).collect())
        .collect();
    let candidates = (1..=r.between(2, 6) as u32)
        .map(|id| (id, few_units(r, columns)))
        .collect();
    Phrase {
        mask: vec![true; r.pick(&[12, 40])],
        nuclei,
        boundaries,
        anchors,
        added,
        columns,
        scores,
        candidates,
        per_frame: r.pick(figures.per_frame),
        insertion_llr: r.pick(&[0.0, -0.0]),
        unvoiced: r.pick(&[0.0, -0.0, 0.1, -0.3, 400_000.0, -1.0e6, 1.0e-45]),
        speech: (!r.once_in(12)).then_some((0, 12)),
        durations: [(); 2].map(|()| even_durations(r, figures.durations)),
    }
}

/// An added stage, where there is one, of the same lists as the nuclei stage.
pub fn share_stages(p: &mut Phrase) {
    if !p.anchors.is_empty() && !p.nuclei.is_empty() {
        p.scores.truncate(p.nuclei.len());
        p.scores.extend(p.scores.clone());
        p.anchors = p.nuclei.clone();
        p.added = p.boundaries.clone();
    }
}
