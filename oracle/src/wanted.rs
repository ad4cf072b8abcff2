//! What each call has to answer: document 01's refusals, written from its text, and else what the original answers.

use crate::ours::Decoded;
use crate::parts::{original_creaky_tail, original_joins, original_rate_s, original_tbu_spans};
use crate::phrase::Phrase;
use crate::reference::{self, Given};
use crate::refusal::refusal;

pub const MOST_FRAMES: usize = 64;
const MOST_MASK: usize = 2048;
pub const LAST_FRAME: u32 = 4095;

/// The original keeps frames on a 0 byte of the mask, which document 01 drops: it is given those that are kept.
pub fn decode(record: &[u8], best: usize, back: usize, out: usize) -> Decoded {
    match refusal(record, best, back, out) {
        Some(number) => Err(number),
        None => Ok(reference::decode(&Phrase::parse(record), Given::WithinMask)),
    }
}

/// The bits of the rate.
pub fn rate_s(frames: &[u32], default_s: f64) -> Result<u64, i32> {
    rate_s_refusal(frames, default_s)?;
    Ok(original_rate_s(frames, default_s).to_bits())
}

/// The refusal of a call for the rate, if any.
pub fn rate_s_refusal(frames: &[u32], default_s: f64) -> Result<(), i32> {
    if frames.len() > MOST_FRAMES {
        return Err(3);
    }
    if late(frames) {
        return Err(5);
    }
    if !(-1.0e6..=1.0e6).contains(&default_s) {
        return Err(6);
    }
    Ok(())
}

/// The words of the spans, where the output has this room.
pub fn tbu_spans(
    nuclei: &[u32],
    bounds: &[u32],
    lo: u32,
    hi: u32,
    room: usize,
) -> Result<Vec<u32>, i32> {
    if nuclei.len() > MOST_FRAMES || bounds.len() > MOST_FRAMES {
        return Err(3);
    }
    if late(nuclei) || late(bounds) || late(&[lo, hi]) {
        return Err(5);
    }
    let words = original_tbu_spans(nuclei, bounds, lo, hi);
    if room < words.len() {
        return Err(11);
    }
    Ok(words)
}

/// Whether the start is joined, and the end.
pub fn joins(voice: &[u8], pitched: &[u8], start: u32, end: u32) -> Result<(bool, bool), i32> {
    fit(voice, pitched, &[start, end])?;
    Ok(original_joins(&bools(voice), &bools(pitched), start, end))
}

pub fn creaky_tail(
    start: u32,
    end: u32,
    next: Option<u32>,
    pitched: &[u8],
    vowel_speech: &[u8],
) -> Result<bool, i32> {
    fit(pitched, vowel_speech, &[start, end, next.unwrap_or(0)])?;
    Ok(original_creaky_tail(
        start,
        end,
        next,
        &bools(pitched),
        &bools(vowel_speech),
    ))
}

fn late(frames: &[u32]) -> bool {
    frames.iter().any(|&f| f > LAST_FRAME)
}

fn fit(one: &[u8], other: &[u8], frames: &[u32]) -> Result<(), i32> {
    if one.len() > MOST_MASK || other.len() > MOST_MASK {
        return Err(3);
    }
    if one.iter().chain(other).any(|&b| b > 1) || late(frames) {
        return Err(5);
    }
    Ok(())
}

fn bools(mask: &[u8]) -> Vec<bool> {
    mask.iter().map(|&b| b != 0).collect()
}
