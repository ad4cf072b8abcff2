//! Our side, through the C interface: every lent buffer stands between red zones, so that a write outside would be seen.

use crate::entry::ENTRY_WORDS;
use crate::most_units::{Answer, Most, CAP};

/// What the two work areas have at least.
pub const WORK_CELLS: usize = 1088;

/// Cells on either side of a lent buffer, and beyond the part that a call may write.
const ZONE: usize = 16;
const MARK: u32 = 0xdead_beef;
const MARK_64: u64 = 0x7ff8_dead_beef_0001;

extern "C" {
    fn tikuwero_decode(
        record: *const u8,
        record_len: usize,
        best: *mut f64,
        best_len: usize,
        back: *mut u32,
        back_len: usize,
        out: *mut u32,
        out_len: usize,
    ) -> i32;
    fn tikuwero_rate_s(frames: *const u32, n: usize, default_s: f64, rate: *mut f64) -> i32;
    fn tikuwero_tbu_spans(
        nuclei: *const u32,
        n: usize,
        bounds: *const u32,
        b: usize,
        lo_edge: u32,
        hi_edge: u32,
        out: *mut u32,
        out_len: usize,
    ) -> i32;
    fn tikuwero_joins(
        voice: *const u8,
        v: usize,
        pitched: *const u8,
        p: usize,
        start: u32,
        end: u32,
    ) -> i32;
    fn tikuwero_creaky_tail(
        start: u32,
        end: u32,
        next: u32,
        pitched: *const u8,
        p: usize,
        vowel_speech: *const u8,
        v: usize,
    ) -> i32;
    fn tikuwero_most_units(record: *const u8, record_len: usize, stage: u32, strict: u32) -> i32;
}

/// A bare call of `tikuwero_decode` with the buffers lent: M, or minus the number of the refusal.
pub fn decode(record: &[u8], best: &mut [f64], back: &mut [u32], out: &mut [u32]) -> i32 {
    // SAFETY: four slices, of which the three that are written overlap nothing.
    unsafe {
        tikuwero_decode(
            record.as_ptr(),
            record.len(),
            best.as_mut_ptr(),
            best.len(),
            back.as_mut_ptr(),
            back.len(),
            out.as_mut_ptr(),
            out.len(),
        )
    }
}

/// What a call of `tikuwero_decode` answered: the entries' words, or the number of the refusal.
pub type Decoded = Result<Vec<u32>, i32>;

/// Lent memory, made once and used for every call.
pub struct Desk {
    best: Vec<f64>,
    back: Vec<u32>,
    out: Vec<u32>,
}

impl Default for Desk {
    fn default() -> Self {
        Desk {
            best: vec![f64::from_bits(MARK_64); WORK_CELLS + 3 * ZONE],
            back: vec![MARK; WORK_CELLS + 3 * ZONE],
            out: vec![MARK; 16 * ENTRY_WORDS + 3 * ZONE],
        }
    }
}

impl Desk {
    /// Decodes with buffers of these lengths, each at most `ZONE` longer than the longest that is ever needed, and checks that
    /// what document 01 says is untouched is untouched, and that the cells used are zero bits.
    pub fn decode(
        &mut self,
        record: &[u8],
        best_len: usize,
        back_len: usize,
        out_len: usize,
    ) -> Result<Decoded, String> {
        self.best.fill(f64::from_bits(MARK_64));
        self.back.fill(MARK);
        self.out.fill(MARK);
        let answer = decode(
            record,
            &mut self.best[ZONE..ZONE + best_len],
            &mut self.back[ZONE..ZONE + back_len],
            &mut self.out[ZONE..ZONE + out_len],
        );
        let (used, written) = if answer < 0 {
            (0, 0)
        } else {
            (WORK_CELLS, answer as usize * ENTRY_WORDS)
        };
        let inside = |i: usize, n: usize| (ZONE..ZONE + n).contains(&i);
        let cell = |i: usize| {
            if inside(i, used) {
                (0, 0)
            } else {
                (MARK_64, MARK)
            }
        };
        if !(0..self.best.len()).all(|i| self.best[i].to_bits() == cell(i).0) {
            return Err("best is not as it should be".into());
        }
        if !(0..self.back.len()).all(|i| self.back[i] == cell(i).1) {
            return Err("back is not as it should be".into());
        }
        if !(0..self.out.len()).all(|i| inside(i, written) || self.out[i] == MARK) {
            return Err("out is written outside its entries".into());
        }
        Ok(if answer < 0 {
            Err(-answer)
        } else {
            Ok(self.out[ZONE..ZONE + written].to_vec())
        })
    }
}

/// The rate, or the number of the refusal.
pub fn rate_s(frames: &[u32], default_s: f64) -> Result<f64, i32> {
    // SAFETY: a slice.
    unsafe { rate_s_of(frames.as_ptr(), frames.len(), default_s) }
}

/// The same with the frames between red zones; an error says that a word of them or of the zones was changed.
pub fn rate_s_in_zones(frames: &[u32], default_s: f64) -> Result<Result<f64, i32>, String> {
    let words = [&[MARK; ZONE], frames, &[MARK; ZONE]].concat();
    let mut lent = words.clone();
    // SAFETY: behind the first zone there are the frames, in memory that may be written, so that a write is seen and not undefined.
    let answer = unsafe { rate_s_of(lent.as_mut_ptr().add(ZONE), frames.len(), default_s) };
    if lent != words {
        return Err("the frames or the words around them were changed".into());
    }
    Ok(answer)
}

/// # Safety
///
/// `n` frames can be read there.
unsafe fn rate_s_of(frames: *const u32, n: usize, default_s: f64) -> Result<f64, i32> {
    let mut rate = f64::from_bits(MARK_64);
    let answer = tikuwero_rate_s(frames, n, default_s, &mut rate);
    if answer < 0 {
        assert_eq!(rate.to_bits(), MARK_64, "rate_s wrote on a refusal");
        Err(-answer)
    } else {
        Ok(rate)
    }
}

/// The words of the spans, or the number of the refusal.
pub fn tbu_spans(
    nuclei: &[u32],
    bounds: &[u32],
    lo: u32,
    hi: u32,
    room: usize,
) -> Result<Vec<u32>, i32> {
    let mut out = vec![MARK; room + ZONE];
    // SAFETY: two slices and an output of `room` words.
    let answer = unsafe {
        tikuwero_tbu_spans(
            nuclei.as_ptr(),
            nuclei.len(),
            bounds.as_ptr(),
            bounds.len(),
            lo,
            hi,
            out.as_mut_ptr(),
            room,
        )
    };
    let written = if answer < 0 { 0 } else { 2 * answer as usize };
    assert!(
        out[written..].iter().all(|&w| w == MARK),
        "tbu_spans wrote past its words"
    );
    out.truncate(written);
    if answer < 0 {
        Err(-answer)
    } else {
        Ok(out)
    }
}

pub fn joins(voice: &[u8], pitched: &[u8], start: u32, end: u32) -> Result<(bool, bool), i32> {
    // SAFETY: two slices.
    let answer = unsafe {
        tikuwero_joins(
            voice.as_ptr(),
            voice.len(),
            pitched.as_ptr(),
            pitched.len(),
            start,
            end,
        )
    };
    if answer < 0 {
        Err(-answer)
    } else {
        Ok((answer & 1 != 0, answer & 2 != 0))
    }
}

pub fn creaky_tail(
    start: u32,
    end: u32,
    next: Option<u32>,
    pitched: &[u8],
    vowel_speech: &[u8],
) -> Result<bool, i32> {
    let next = next.unwrap_or(u32::MAX);
    // SAFETY: two slices.
    let answer = unsafe {
        tikuwero_creaky_tail(
            start,
            end,
            next,
            pitched.as_ptr(),
            pitched.len(),
            vowel_speech.as_ptr(),
            vowel_speech.len(),
        )
    };
    if answer < 0 {
        Err(-answer)
    } else {
        Ok(answer != 0)
    }
}

/// A bare call of `tikuwero_most_units`: the number that it returns.
pub fn most_units_number(record: &[u8], stage: u32, strict: u32) -> i32 {
    // SAFETY: a slice.
    unsafe { tikuwero_most_units(record.as_ptr(), record.len(), stage, strict) }
}

/// The most units of a path, or the number of the refusal. The record is lent in memory of just its length, and an error says that its
/// bytes were changed, or that a number came back that the call never gives.
pub fn most_units(record: &[u8], stage: u32, strict: u32) -> Result<Answer, String> {
    let lent = record.to_vec();
    let answer = most_units_number(&lent, stage, strict);
    if lent != record {
        return Err("the record's bytes were changed".into());
    }
    match answer {
        i32::MAX => Ok(Ok(Most::NoPath)),
        0.. if answer as u32 <= CAP => Ok(Ok(Most::Units(answer as u32))),
        -11..=-1 => Ok(Err(-answer)),
        _ => Err(format!("most_units returned {answer}")),
    }
}
