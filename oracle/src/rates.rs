//! The speaking rate by a second way, written from document 02's Ask 3: the gap for a place is looked for among all numbers that a gap
//! can be, by that ask's own sentence. And lists of frames for it, of every count, order and size of gaps that a caller can lend.

use crate::random::Random;
use crate::wanted::{rate_s_refusal, LAST_FRAME, MOST_FRAMES};
use std::iter::repeat_with;

/// Above every number that is tried, so that a cell without a gap is never counted.
const NO_GAP: u16 = u16::MAX;

/// The gaps of an accepted list. The number of cells is fixed, by which the compiler has many of them counted at once.
#[derive(Debug)]
struct Gaps([u16; MOST_FRAMES]);

impl Gaps {
    fn of(frames: &[u32]) -> Gaps {
        let mut ascending = frames.to_vec();
        ascending.sort();
        let mut gaps = Gaps([NO_GAP; MOST_FRAMES]);
        for (cell, pair) in gaps.0.iter_mut().zip(ascending.windows(2)) {
            *cell = (pair[1] - pair[0]) as u16;
        }
        gaps
    }

    fn count(&self, test: impl Fn(u16) -> bool) -> usize {
        let passed: u16 = self.0.iter().map(|&gap| u16::from(test(gap))).sum();
        usize::from(passed)
    }

    /// Whether this number has "at most that many gaps smaller and more than that many no larger".
    fn fits(&self, number: u16, place: usize) -> bool {
        let smaller = self.count(|gap| gap < number);
        let no_larger = self.count(|gap| gap <= number);
        smaller <= place && no_larger > place
    }

    /// The gap for a place, counted from 0 in ascending order.
    fn at(&self, place: usize) -> f64 {
        let numbers = 0..=LAST_FRAME as u16;
        let fitting: Vec<u16> = numbers.filter(|&v| self.fits(v, place)).collect();
        match fitting[..] {
            [gap] if self.0.contains(&gap) => f64::from(gap),
            _ => panic!("{fitting:?} fit place {place} of {self:?}"),
        }
    }
}

/// The bits of the rate, or the number of the refusal.
pub fn rate_s(frames: &[u32], default_s: f64) -> Result<u64, i32> {
    rate_s_refusal(frames, default_s)?;
    let gaps = Gaps::of(frames);
    let median = match frames.len() {
        0 | 1 => return Ok(default_s.to_bits()),
        n if n % 2 == 0 => gaps.at(n / 2 - 1),
        n => (gaps.at(n / 2 - 1) + gaps.at(n / 2)) / 2.0,
    };
    let rate = median * 0.01;
    Ok(if rate > 0.0 { rate } else { default_s }.to_bits())
}

/// How the gaps of a list are drawn. All of them together are at most the last frame.
#[derive(Clone, Copy, Debug)]
pub enum Sizes {
    /// all frames are the same
    Zero,
    Equal,
    /// 0 to 3
    Small,
    /// as the nuclei of speech have them
    Syllables,
    /// one or more of them 0, so that frames are repeated
    Repeats,
    /// most of them 0 or 1, and some as large as there is room for
    Uneven,
    /// two sizes, of which the smaller goes up to about the middle of the gaps in ascending order
    Halves,
    Any,
}

impl Sizes {
    const ALL: [Sizes; 8] = [
        Sizes::Zero,
        Sizes::Equal,
        Sizes::Small,
        Sizes::Syllables,
        Sizes::Repeats,
        Sizes::Uneven,
        Sizes::Halves,
        Sizes::Any,
    ];

    pub fn any(r: &mut Random) -> Sizes {
        r.pick(&Sizes::ALL)
    }

    /// So many gaps, in any order.
    fn draw(self, r: &mut Random, count: usize) -> Vec<u32> {
        let share = LAST_FRAME / count.max(1) as u32;
        let mut gaps = match self {
            Sizes::Zero => vec![0; count],
            Sizes::Equal => vec![between(r, 0, share); count],
            Sizes::Small => each(count, || between(r, 0, 3)),
            Sizes::Syllables => each(count, || between(r, 8, 47)),
            Sizes::Repeats => repeats(r, count, share),
            Sizes::Uneven => uneven(r, count),
            Sizes::Halves => halves(r, count),
            Sizes::Any => scattered(r, count),
        };
        r.shuffle(&mut gaps);
        gaps
    }
}

fn between(r: &mut Random, lo: u32, hi: u32) -> u32 {
    r.between(lo as usize, hi as usize) as u32
}

fn each(count: usize, gap: impl FnMut() -> u32) -> Vec<u32> {
    repeat_with(gap).take(count).collect()
}

fn repeats(r: &mut Random, count: usize, share: u32) -> Vec<u32> {
    let zeros = r.between(count.min(1), count);
    let others = each(count - zeros, || between(r, 1, share));
    [vec![0; zeros], others].concat()
}

fn uneven(r: &mut Random, count: usize) -> Vec<u32> {
    let mut room = LAST_FRAME - count as u32;
    each(count, || {
        if !r.once_in(5) {
            return between(r, 0, 1);
        }
        let gap = between(r, 0, room);
        room -= gap;
        gap
    })
}

fn halves(r: &mut Random, count: usize) -> Vec<u32> {
    let smaller = (count / 2 + r.below(3)).saturating_sub(1).min(count);
    let larger = count - smaller;
    let size = between(r, 0, 2);
    let room = (LAST_FRAME - smaller as u32 * size) / larger.max(1) as u32;
    let larger_size = if r.once_in(2) {
        room
    } else {
        between(r, size, room)
    };
    [vec![size; smaller], vec![larger_size; larger]].concat()
}

fn scattered(r: &mut Random, count: usize) -> Vec<u32> {
    let mut frames = each(count + 1, || between(r, 0, LAST_FRAME));
    frames.sort();
    frames.windows(2).map(|pair| pair[1] - pair[0]).collect()
}

/// The order of a list.
#[derive(Clone, Copy, Debug)]
pub enum Order {
    Ascending,
    Descending,
    Shuffled,
    /// ascending but for two frames that have changed places
    Exchanged,
    /// ascending but for the last frame, which comes first
    LastFirst,
    /// ascending but for the first frame, which comes last
    FirstLast,
}

impl Order {
    pub const ALL: [Order; 6] = [
        Order::Ascending,
        Order::Descending,
        Order::Shuffled,
        Order::Exchanged,
        Order::LastFirst,
        Order::FirstLast,
    ];

    /// A third of the lists ascend.
    pub fn any(r: &mut Random) -> Order {
        if r.once_in(3) {
            Order::Ascending
        } else {
            r.pick(&Order::ALL[1..])
        }
    }

    /// Of an ascending list.
    fn put(self, r: &mut Random, frames: &mut [u32]) {
        if frames.is_empty() {
            return;
        }
        match self {
            Order::Ascending => {}
            Order::Descending => frames.reverse(),
            Order::Shuffled => r.shuffle(frames),
            Order::Exchanged => frames.swap(r.below(frames.len()), r.below(frames.len())),
            Order::LastFirst => frames.rotate_right(1),
            Order::FirstLast => frames.rotate_left(1),
        }
    }
}

/// Frames with these gaps, none above the last: from frame 0 on, up to the last frame, or somewhere between.
fn ascending(r: &mut Random, count: usize, sizes: Sizes) -> Vec<u32> {
    if count == 0 {
        return Vec::new();
    }
    let gaps = sizes.draw(r, count - 1);
    let highest = LAST_FRAME - gaps.iter().sum::<u32>();
    let any = between(r, 0, highest);
    let mut frames = vec![r.pick(&[0, highest, any])];
    for (i, gap) in gaps.iter().enumerate() {
        frames.push(frames[i] + gap);
    }
    frames
}

/// So many frames, none above the last.
pub fn frames(r: &mut Random, count: usize, sizes: Sizes, order: Order) -> Vec<u32> {
    let mut frames = ascending(r, count, sizes);
    order.put(r, &mut frames);
    frames
}

/// Defaults up to both limits, and beyond them, at first by one f64.
pub const ACCEPTED_DEFAULTS: [f64; 6] = [0.2, 0.0, -0.0, 5.0e-324, 1.0e6, -1.0e6];
pub const REFUSED_DEFAULTS: [f64; 5] = [
    1.0e6_f64.next_up(),
    (-1.0e6_f64).next_down(),
    f64::NAN,
    f64::INFINITY,
    f64::NEG_INFINITY,
];

/// Any count up to two more than is allowed, more often one around 0 and around the limit.
fn any_count(r: &mut Random) -> usize {
    let most = MOST_FRAMES + 2;
    match r.below(8) {
        0 => r.below(10),
        1 => r.between(most - 4, most),
        _ => r.below(most + 1),
    }
}

/// Frames and a default: one list in twelve may end in late frames, or in the last that are not, and one default in twelve is refused.
pub fn draw(r: &mut Random) -> (Vec<u32>, f64) {
    let (count, sizes, order) = (any_count(r), Sizes::any(r), Order::any(r));
    let mut frames = ascending(r, count, sizes);
    if r.once_in(12) {
        let early = count - r.below(count.min(3) + 1);
        frames[early..].fill_with(|| r.pick(&[4094, 4095, 4096, u32::MAX]));
        frames.sort();
    }
    order.put(r, &mut frames);
    let defaults = if r.once_in(12) {
        &REFUSED_DEFAULTS[..]
    } else {
        &ACCEPTED_DEFAULTS
    };
    (frames, r.pick(defaults))
}

/// For every count of frames from 2 up to the limit, ascending lists with gaps of two sizes, and with every number of the smaller ones: so
/// each place is once that of the last smaller gap and once that of the first larger one.
pub fn two_sizes() -> Vec<Vec<u32>> {
    let mut all = Vec::new();
    for gaps in 1..MOST_FRAMES as u32 {
        for smaller in 0..=gaps {
            let share = LAST_FRAME / (gaps - smaller).max(1);
            for (size, larger) in [(0, 1), (1, 2), (0, share)] {
                let frame = |i: u32| i.min(smaller) * size + i.saturating_sub(smaller) * larger;
                all.push((0..=gaps).map(frame).collect());
            }
        }
    }
    all
}
