//! Calls of the entries that take no record, drawn around every limit, with what is wanted and what we answer in one form.

use crate::ours;
use crate::random::Random;
use crate::wanted;

/// What an accepted call returns through the C interface and the words that it leaves in lent memory (a rate is its bits, the lower
/// half first), or the number of the refusal.
pub type Answer = Result<(u32, Vec<u32>), i32>;

/// A call with its arguments, in the order of the C interface.
#[derive(Clone, Debug)]
pub enum Call {
    /// frames, default
    Rate(Vec<u32>, f64),
    /// nuclei, boundaries, both edges, words of the output
    Spans(Vec<u32>, Vec<u32>, u32, u32, usize),
    /// voice mask, pitch mask, start, end
    Joins(Vec<u8>, Vec<u8>, u32, u32),
    /// start, end, next nucleus, pitch mask, mask of vowel speech
    Tail(u32, u32, Option<u32>, Vec<u8>, Vec<u8>),
}

impl Call {
    pub fn draw(r: &mut Random) -> Call {
        match r.below(4) {
            0 => rate(r),
            1 => spans(r),
            2 => joins(r),
            _ => tail(r),
        }
    }

    pub fn wanted(&self) -> Answer {
        match self {
            Call::Rate(frames, default_s) => wanted::rate_s(frames, *default_s).map(rate_answer),
            Call::Spans(nuclei, bounds, lo, hi, room) => {
                wanted::tbu_spans(nuclei, bounds, *lo, *hi, *room).map(spans_answer)
            }
            Call::Joins(voice, pitched, start, end) => {
                wanted::joins(voice, pitched, *start, *end).map(joins_answer)
            }
            Call::Tail(start, end, next, pitched, vowel_speech) => {
                wanted::creaky_tail(*start, *end, *next, pitched, vowel_speech).map(tail_answer)
            }
        }
    }

    /// Our answer, through the C interface.
    pub fn ours(&self) -> Answer {
        match self {
            Call::Rate(frames, default_s) => {
                ours::rate_s(frames, *default_s).map(|rate| rate_answer(rate.to_bits()))
            }
            Call::Spans(nuclei, bounds, lo, hi, room) => {
                ours::tbu_spans(nuclei, bounds, *lo, *hi, *room).map(spans_answer)
            }
            Call::Joins(voice, pitched, start, end) => {
                ours::joins(voice, pitched, *start, *end).map(joins_answer)
            }
            Call::Tail(start, end, next, pitched, vowel_speech) => {
                ours::creaky_tail(*start, *end, *next, pitched, vowel_speech).map(tail_answer)
            }
        }
    }
}

fn rate(r: &mut Random) -> Call {
    let frames = frames(r);
    let defaults = [
        0.2,
        0.0,
        -0.0,
        1.0e6,
        -1.0e6,
        1_000_000.5,
        f64::NAN,
        f64::INFINITY,
    ];
    Call::Rate(frames, r.pick(&defaults))
}

fn spans(r: &mut Random) -> Call {
    let (nuclei, bounds) = (frames(r), frames(r));
    let (lo, hi) = (frame(r), frame(r));
    let words = wanted::tbu_spans(&nuclei, &bounds, lo, hi, usize::MAX).map_or(0, |w| w.len());
    let room = (words + r.below(4)).saturating_sub(1);
    Call::Spans(nuclei, bounds, lo, hi, room)
}

fn joins(r: &mut Random) -> Call {
    let (voice, pitched) = (mask(r), mask(r));
    let (start, end) = edges(r, voice.len());
    Call::Joins(voice, pitched, start, end)
}

fn tail(r: &mut Random) -> Call {
    let pitched = if r.once_in(2) { mask(r) } else { runs(r) };
    let vowel_speech = if r.once_in(2) {
        mask(r)
    } else {
        vec![1; r.below(60)]
    };
    let (start, end) = edges(r, pitched.len());
    let next = (!r.once_in(3)).then(|| end.saturating_add(r.below(12) as u32));
    Call::Tail(start, end, next, pitched, vowel_speech)
}

fn frame(r: &mut Random) -> u32 {
    match r.below(12) {
        0 => r.pick(&[4094, 4095, 4096, u32::MAX]),
        1..=3 => r.below(4096) as u32,
        _ => r.below(60) as u32,
    }
}

fn frames(r: &mut Random) -> Vec<u32> {
    let n = match r.below(8) {
        0 => r.between(60, 66),
        1 => 0,
        _ => r.below(9),
    };
    let wild = r.once_in(6);
    (0..n)
        .map(|_| if wild { frame(r) } else { r.below(90) as u32 })
        .collect()
}

/// A mask in runs of up to 9 frames, so that stretches without a mark, as a creaky tail has, occur.
fn runs(r: &mut Random) -> Vec<u8> {
    let frames = r.below(60);
    let mut mask = Vec::new();
    while mask.len() < frames {
        let marked = u8::from(mask.last() == Some(&0));
        mask.resize(mask.len() + r.between(1, 9), marked);
    }
    mask
}

fn mask(r: &mut Random) -> Vec<u8> {
    let n = match r.below(20) {
        0 => r.between(2046, 2050),
        _ => r.below(40),
    };
    let (odd, gaps) = (r.once_in(20), r.between(2, 12));
    (0..n)
        .map(|_| {
            if odd && r.once_in(30) {
                2
            } else {
                u8::from(!r.once_in(gaps))
            }
        })
        .collect()
}

fn edges(r: &mut Random, len: usize) -> (u32, u32) {
    let edge = |r: &mut Random| {
        if r.once_in(20) {
            frame(r)
        } else {
            r.below(len + 4) as u32
        }
    };
    (edge(r), edge(r))
}

fn rate_answer(bits: u64) -> (u32, Vec<u32>) {
    (0, vec![bits as u32, (bits >> 32) as u32])
}

fn spans_answer(words: Vec<u32>) -> (u32, Vec<u32>) {
    (words.len() as u32 / 2, words)
}

fn joins_answer((start, end): (bool, bool)) -> (u32, Vec<u32>) {
    (u32::from(start) + 2 * u32::from(end), Vec::new())
}

fn tail_answer(creaky: bool) -> (u32, Vec<u32>) {
    (u32::from(creaky), Vec::new())
}
