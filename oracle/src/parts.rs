//! The original's `joins`, `creaky_tail` and `tbu_spans`, which are private to evidence.rs: their text as it stands there.

use crate::joins::{Joins, JOIN_TRIM_FRAMES};
use crate::TbuSpan;

include!(concat!(env!("OUT_DIR"), "/parts.rs"));

pub fn original_joins(voice: &[bool], pitched: &[bool], start: u32, end: u32) -> (bool, bool) {
    let joined = joins(voice, pitched, &span(start, end));
    (joined.start, joined.end)
}

pub fn original_creaky_tail(
    start: u32,
    end: u32,
    next: Option<u32>,
    pitched: &[bool],
    vowel_speech: &[bool],
) -> bool {
    creaky_tail(
        &span(start, end),
        next.map(|f| f as usize),
        pitched,
        vowel_speech,
    )
}

pub fn original_spans(nuclei: &[u32], bounds: &[u32], lo: u32, hi: u32) -> Vec<TbuSpan> {
    tbu_spans(nuclei, bounds, lo, hi)
}

/// The words of the spans.
pub fn original_tbu_spans(nuclei: &[u32], bounds: &[u32], lo: u32, hi: u32) -> Vec<u32> {
    original_spans(nuclei, bounds, lo, hi)
        .iter()
        .flat_map(|s| [s.start_frame, s.end_frame])
        .collect()
}

pub fn original_rate_s(frames: &[u32], default_s: f64) -> f64 {
    crate::duration_original::rate_s(frames, default_s)
}

fn span(start_frame: u32, end_frame: u32) -> TbuSpan {
    TbuSpan {
        start_frame,
        end_frame,
    }
}
