//! The six calls of `include/tikuwero.h` as safe Rust, to be taken over as it stands: no call can be misused, and none
//! allocates. The header says what each answers. Link with `-l static=tikuwero`.

#![allow(dead_code)] // a caller need not use all of it

use core::ops::Deref;

/// Sizes, in elements, as in the header.
pub const MAX_RECORD: usize = 65_536;
pub const MAX_CANDIDATES: usize = 16;
pub const MAX_UNITS: usize = 16;
pub const MAX_FRAMES: usize = 64;
const WORK_CELLS: usize = 1088;
const ENTRY_WORDS: usize = 54;
const NONE: u32 = u32::MAX;
const NO_BOUNDARY: u32 = i32::MAX as u32;

mod c {
    unsafe extern "C" {
        pub fn tikuwero_decode(
            record: *const u8,
            record_len: usize,
            best: *mut f64,
            best_len: usize,
            back: *mut u32,
            back_len: usize,
            out: *mut u32,
            out_len: usize,
        ) -> i32;
        pub fn tikuwero_most_units(
            record: *const u8,
            record_len: usize,
            stage: u32,
            strict: u32,
        ) -> i32;
        pub fn tikuwero_rate_s(frames: *const u32, n: usize, default_s: f64, rate: *mut f64)
            -> i32;
        pub fn tikuwero_tbu_spans(
            nuclei: *const u32,
            n: usize,
            bounds: *const u32,
            b: usize,
            lo_edge: u32,
            hi_edge: u32,
            out: *mut u32,
            out_len: usize,
        ) -> i32;
        pub fn tikuwero_joins(
            voice: *const u8,
            v: usize,
            pitched: *const u8,
            p: usize,
            start: u32,
            end: u32,
        ) -> i32;
        pub fn tikuwero_creaky_tail(
            start: u32,
            end: u32,
            next: u32,
            pitched: *const u8,
            p: usize,
            vowel_speech: *const u8,
            v: usize,
        ) -> i32;
    }
}

/// Why a call was refused. `Desk` is none of these: every call here is lent enough.
#[derive(Clone, Copy, Debug, PartialEq, Eq)]
pub enum Refusal {
    Stub = 1,
    Edition,
    Size,
    Reach,
    Track,
    Cost,
    Bare,
    Twice,
    Units,
    Column,
}

impl Refusal {
    const ALL: [(Refusal, &'static str); 10] = [
        (Refusal::Stub, "stub"),
        (Refusal::Edition, "edition"),
        (Refusal::Size, "size"),
        (Refusal::Reach, "reach"),
        (Refusal::Track, "track"),
        (Refusal::Cost, "cost"),
        (Refusal::Bare, "bare"),
        (Refusal::Twice, "twice"),
        (Refusal::Units, "units"),
        (Refusal::Column, "column"),
    ];

    pub fn number(self) -> u32 {
        self as u32
    }

    pub fn word(self) -> &'static str {
        Refusal::ALL[self as usize - 1].1
    }
}

/// What a call returned: a value from 0 on, or minus the number of a refusal.
fn answered(returned: i32) -> Result<u32, Refusal> {
    u32::try_from(returned).map_err(|_| Refusal::ALL[returned.unsigned_abs() as usize - 1].0)
}

/// The memory that decoding is lent. Made once, it serves any number of records.
pub struct Desk {
    best: [f64; WORK_CELLS],
    back: [u32; WORK_CELLS],
    out: [u32; MAX_CANDIDATES * ENTRY_WORDS],
}

impl Default for Desk {
    fn default() -> Self {
        Self::new()
    }
}

impl Desk {
    pub const fn new() -> Self {
        Desk {
            best: [0.0; WORK_CELLS],
            back: [0; WORK_CELLS],
            out: [0; MAX_CANDIDATES * ENTRY_WORDS],
        }
    }

    /// The entries of the record's candidates, best score first.
    pub fn decode(&mut self, record: &[u8]) -> Result<Entries<'_>, Refusal> {
        // SAFETY: four arrays that do not overlap, each with its length; a slice's pointer is never null.
        let returned = unsafe {
            c::tikuwero_decode(
                record.as_ptr(),
                record.len(),
                self.best.as_mut_ptr(),
                self.best.len(),
                self.back.as_mut_ptr(),
                self.back.len(),
                self.out.as_mut_ptr(),
                self.out.len(),
            )
        };
        let words = answered(returned)? as usize * ENTRY_WORDS;
        Ok(Entries(&self.out[..words]))
    }
}

/// The entries of a record that are still to come. A type with a name and nothing to drop, so that a `match` on the
/// answer may be a function's last expression.
#[derive(Clone, Copy, Debug)]
pub struct Entries<'a>(&'a [u32]);

impl<'a> Iterator for Entries<'a> {
    type Item = Entry<'a>;

    fn next(&mut self) -> Option<Entry<'a>> {
        let (first, rest) = self.0.split_at_checked(ENTRY_WORDS)?;
        self.0 = rest;
        Some(Entry(first))
    }

    fn size_hint(&self) -> (usize, Option<usize>) {
        let left = self.0.len() / ENTRY_WORDS;
        (left, Some(left))
    }
}

impl ExactSizeIterator for Entries<'_> {}

/// How a candidate was decoded: the words of its entry.
#[derive(Clone, Copy, Debug)]
pub struct Entry<'a>(&'a [u32]);

impl<'a> Entry<'a> {
    pub fn id(self) -> u32 {
        self.0[0]
    }

    /// The score, by which alone entries are ranked: the sum, brought within ±1,000,000 and rounded to f32.
    pub fn llr(self) -> f32 {
        f32::from_bits(self.0[1])
    }

    /// The full sum: that of the path or, where there is none, the number of units times the unvoiced score, an f32
    /// product. A zero has its own sign.
    pub fn sum(self) -> f64 {
        f64::from_bits(u64::from(self.0[4]) | u64::from(self.0[5]) << 32)
    }

    pub fn pass(self) -> Pass {
        Pass::ALL[self.0[2] as usize].0
    }

    pub fn units(self) -> Units<'a> {
        Units(&self.0[6..6 + 3 * self.0[3] as usize])
    }
}

/// The pass that found a path, or why there is none.
#[derive(Clone, Copy, Debug, PartialEq, Eq)]
pub enum Pass {
    NucleiStrict,
    CountStrict,
    CountRelaxed,
    NucleiRelaxed,
    /// No path, but a nucleus in the mask.
    None,
    /// No path and no nucleus in the mask.
    Unvoiced,
}

impl Pass {
    const ALL: [(Pass, &'static str); 6] = [
        (Pass::NucleiStrict, "nuclei-strict"),
        (Pass::CountStrict, "count-strict"),
        (Pass::CountRelaxed, "count-relaxed"),
        (Pass::NucleiRelaxed, "nuclei-relaxed"),
        (Pass::None, "none"),
        (Pass::Unvoiced, "unvoiced"),
    ];

    pub fn word(self) -> &'static str {
        Pass::ALL[self as usize].1
    }
}

/// The units of an entry that are still to come.
#[derive(Clone, Copy, Debug)]
pub struct Units<'a>(&'a [u32]);

impl Iterator for Units<'_> {
    type Item = Unit;

    fn next(&mut self) -> Option<Unit> {
        let (&[start, end, row], rest) = self.0.split_first_chunk()?;
        self.0 = rest;
        Some(Unit {
            start,
            end,
            row: (row != NONE).then_some(row),
        })
    }

    fn size_hint(&self) -> (usize, Option<usize>) {
        let left = self.0.len() / 3;
        (left, Some(left))
    }
}

impl ExactSizeIterator for Units<'_> {}

/// The frames from start up to but not including end, and the score row of the unit's anchor, if it has one.
#[derive(Clone, Copy, Debug, PartialEq, Eq)]
pub struct Unit {
    pub start: u32,
    pub end: u32,
    pub row: Option<u32>,
}

/// What a path goes over: the nuclei and the boundaries, or the added anchors and boundaries.
#[derive(Clone, Copy, Debug, PartialEq, Eq)]
pub enum Stage {
    Nuclei,
    Added,
}

/// How many anchors a unit of a path holds.
#[derive(Clone, Copy, Debug, PartialEq, Eq)]
pub enum Strictness {
    /// None or one.
    Relaxed,
    /// Exactly one.
    Strict,
}

/// How many units would have fitted.
#[derive(Clone, Copy, Debug, PartialEq, Eq)]
pub enum MostUnits {
    /// The stage has no boundaries, and so no path.
    NoBoundary,
    /// The most that a path has; `MAX_UNITS` is that many or more.
    Units(usize),
}

/// The most units of a path in one stage of the record, whether or not decoding would search there.
pub fn most_units(
    record: &[u8],
    stage: Stage,
    strictness: Strictness,
) -> Result<MostUnits, Refusal> {
    // SAFETY: a slice.
    let returned = unsafe {
        c::tikuwero_most_units(
            record.as_ptr(),
            record.len(),
            u32::from(stage == Stage::Added),
            u32::from(strictness == Strictness::Strict),
        )
    };
    answered(returned).map(|most| match most {
        NO_BOUNDARY => MostUnits::NoBoundary,
        units => MostUnits::Units(units as usize),
    })
}

/// The speaking rate in seconds per syllable.
pub fn rate_s(frames: &[u32], default_s: f64) -> Result<f64, Refusal> {
    let mut rate = default_s;
    // SAFETY: a slice and a place for the rate.
    let returned =
        unsafe { c::tikuwero_rate_s(frames.as_ptr(), frames.len(), default_s, &mut rate) };
    answered(returned).map(|_| rate)
}

/// The frames from start up to but not including end.
#[derive(Clone, Copy, Debug, Default, PartialEq, Eq)]
#[repr(C)]
pub struct Span {
    pub start: u32,
    pub end: u32,
}

/// Spans, as a slice of them.
#[derive(Clone, Copy, Debug)]
pub struct Spans {
    spans: [Span; MAX_FRAMES],
    count: usize,
}

impl Deref for Spans {
    type Target = [Span];

    fn deref(&self) -> &[Span] {
        &self.spans[..self.count]
    }
}

/// The span of each distinct nucleus, by ascending nucleus.
pub fn tbu_spans(
    nuclei: &[u32],
    bounds: &[u32],
    lo_edge: u32,
    hi_edge: u32,
) -> Result<Spans, Refusal> {
    let mut spans = [Span::default(); MAX_FRAMES];
    // SAFETY: two slices, and an array whose elements are two words each.
    let returned = unsafe {
        c::tikuwero_tbu_spans(
            nuclei.as_ptr(),
            nuclei.len(),
            bounds.as_ptr(),
            bounds.len(),
            lo_edge,
            hi_edge,
            spans.as_mut_ptr().cast(),
            2 * MAX_FRAMES,
        )
    };
    let count = answered(returned)? as usize;
    Ok(Spans { spans, count })
}

/// Which edges of a span the voice runs through.
#[derive(Clone, Copy, Debug, PartialEq, Eq)]
pub struct Joins {
    pub start: bool,
    pub end: bool,
}

pub fn joins(voice: &[u8], pitched: &[u8], start: u32, end: u32) -> Result<Joins, Refusal> {
    // SAFETY: two slices.
    let returned = unsafe {
        c::tikuwero_joins(
            voice.as_ptr(),
            voice.len(),
            pitched.as_ptr(),
            pitched.len(),
            start,
            end,
        )
    };
    answered(returned).map(|edges| Joins {
        start: edges & 1 != 0,
        end: edges & 2 != 0,
    })
}

/// Whether the syllable from start to end dies away in creak; `next` is the next nucleus's frame, if there is one.
pub fn creaky_tail(
    start: u32,
    end: u32,
    next: Option<u32>,
    pitched: &[u8],
    vowel_speech: &[u8],
) -> Result<bool, Refusal> {
    // a frame that has the word for none is above the highest all the same, and is refused by the word below it
    let next = next.map_or(NONE, |frame| frame.min(NONE - 1));
    // SAFETY: two slices.
    let returned = unsafe {
        c::tikuwero_creaky_tail(
            start,
            end,
            next,
            pitched.as_ptr(),
            pitched.len(),
            vowel_speech.as_ptr(),
            vowel_speech.len(),
        )
    };
    answered(returned).map(|creaky| creaky != 0)
}
