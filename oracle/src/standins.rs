//! Small stand-ins for the crates that the original's files use and that are not here: just what those files name.
//! The lent tables stand in for `Scorer::llr` and `log_prior`.
//!
//! The original is timed over them (`bench/`), so they are cheaper than what they stand in for: `llr` is one checked read
//! of a flat table, which the original finds in a map, and `log_prior` is told a duration in seconds, so that a
//! multiplication, an addition and a conversion remain before its one checked read, where the original has a division and a
//! logarithm. Speech frames are copied, where the original works them out. Only `clamp_log` is dearer, by a store for each candidate.

use std::cell::Cell;

#[derive(Clone, Debug, PartialEq)]
pub struct TbuSpan {
    pub start_frame: u32,
    pub end_frame: u32,
}

#[derive(Clone, Copy, Debug, PartialEq, Eq)]
pub enum MeasureIssue {
    Unpitched,
    Unvoiced,
    CreakyTail,
}

#[derive(Debug)]
pub enum AssessError {}

/// Speech frames, and those at voice level, in place of energies.
pub struct EnergyTrack {
    pub speech: Vec<bool>,
    pub voice: Vec<bool>,
}

pub struct Nucleus {
    pub frame: u32,
}

pub struct F0Frame {
    pub hz: Option<f32>,
}

pub struct F0Track {
    pub frames: Vec<F0Frame>,
}

pub struct SpeechRegion {
    pub start: u32,
    pub end: u32,
}

pub struct Analysis {
    pub nuclei: Vec<Nucleus>,
    pub boundaries: Vec<u32>,
    pub energy: EnergyTrack,
    pub f0: F0Track,
    pub sonority: Vec<f32>,
    pub speech: Option<SpeechRegion>,
    pub register: (),
}

pub struct GradingTarget;

#[derive(Clone, Debug, PartialEq, Eq)]
pub struct CandidateId(pub u32);

/// A target is the column of its scores.
#[derive(Clone, Debug)]
pub struct ToneTarget {
    pub tone: u8,
}

pub struct Candidate {
    pub id: CandidateId,
    pub targets: Vec<ToneTarget>,
}

/// The score row that a syllable was judged on, if any.
#[derive(Clone, Debug, PartialEq)]
pub struct ToneJudgement {
    pub row: Option<u32>,
}

pub struct SyllableFit {
    pub span: TbuSpan,
    pub judgement: ToneJudgement,
}

pub struct CandidateScore {
    pub id: CandidateId,
    pub llr: f32,
    pub posterior: f32,
    pub syllables: Vec<SyllableFit>,
}

pub struct DecodeParams {
    pub filler_per_frame: f64,
    pub insertion_llr: f64,
    pub default_rate_s: f64,
    pub dur_sigma: f64,
}

pub struct Calibration {
    pub decode: DecodeParams,
}

/// The figures of a record, in place of a language pack.
pub struct LanguagePack {
    pub calibration: Calibration,
    pub unvoiced: f32,
    /// by entry of the evidence table, then column
    pub scores: Vec<f32>,
    pub columns: usize,
    /// the record's row of each entry of the evidence table
    pub rows: Vec<u32>,
}

impl LanguagePack {
    pub fn calibration(&self) -> &Calibration {
        &self.calibration
    }
}

pub struct TargetContext {
    pub index: u32,
    pub count: u32,
    pub prev: Option<u8>,
    pub phrase_final: bool,
}

/// The default asks for speech frames; half its margin, for frames at voice level.
#[derive(Clone)]
pub struct SegmentParams {
    pub speech_margin_db: f32,
    pub other: (),
}

impl Default for SegmentParams {
    fn default() -> Self {
        SegmentParams {
            speech_margin_db: 2.0,
            other: (),
        }
    }
}

pub const SONORANT_SHARE: f32 = 0.5;

pub fn speech_frames(e: &EnergyTrack, p: &SegmentParams) -> Vec<bool> {
    if p.speech_margin_db == 2.0 {
        e.speech.clone()
    } else {
        e.voice.clone()
    }
}

pub struct Extra {
    pub nuclei: Vec<Nucleus>,
    pub boundaries: Vec<u32>,
}

/// Not reached: the count stage comes from the record.
pub fn extra_candidates(
    _: &EnergyTrack,
    _: &F0Track,
    _: &[f32],
    _: &SpeechRegion,
    _: &[Nucleus],
    _: &SegmentParams,
) -> Extra {
    unreachable!("the record lends the added stage")
}

/// What an extraction was asked for.
#[derive(Clone, Debug, PartialEq)]
pub struct Extracted {
    pub joins: crate::joins::Joins,
    pub issues: Vec<MeasureIssue>,
}

pub fn extract_nucleus(
    _: &F0Track,
    _: &TbuSpan,
    _: u32,
    _: &(),
    joins: crate::joins::Joins,
) -> Result<Extracted, MeasureIssue> {
    Ok(Extracted {
        joins,
        issues: Vec::new(),
    })
}

thread_local! {
    /// The duration tables of the two stages, the second behind the first.
    static DURATIONS: [Cell<f64>; 150] = const { [const { Cell::new(0.0) }; 150] };
    /// How many stages of the decoder that is being made have asked for their rate.
    static STAGES: Cell<u32> = const { Cell::new(0) };
}

thread_local! {
    static UNCLAMPED: Cell<f64> = const { Cell::new(0.0) };
}

/// In place of lib.rs's `clamp_log`, which it calls: all that the original shows of a candidate's sum is what comes back from there.
pub(crate) fn clamp_log(v: f64) -> f32 {
    UNCLAMPED.set(v);
    crate::clamp_original::clamp_log(v)
}

/// What `clamp_log` was given last: by `Decoder::score` the `path.score` of its candidate, or the product where there is no path.
pub(crate) fn unclamped() -> f64 {
    UNCLAMPED.get()
}

/// Lends the duration tables to the decoders made from now on in this thread.
pub fn lend_durations(tables: &[[f64; 75]; 2]) {
    DURATIONS.with(|d| {
        for (cell, &value) in d.iter().zip(tables.iter().flatten()) {
            cell.set(value);
        }
    });
}

/// To be called before a decoder is made: its first stage takes the first table.
pub fn begin_decoder() {
    STAGES.set(0);
}

/// In place of duration.rs for the decoder: a stage's rate says where its table stands.
pub mod duration {
    use super::{DURATIONS, STAGES};

    pub(crate) const FRAME_S: f64 = crate::duration_original::FRAME_S;

    /// What is added to a duration in frames to give its place among the tables: the first entry is that of 6 frames, and a
    /// half is for rounding.
    pub(crate) fn rate_s(_: &[u32], _: f64) -> f64 {
        let stage = STAGES.get();
        STAGES.set(stage + 1);
        f64::from(75 * stage) - 6.0 + 0.5
    }

    #[inline(always)]
    pub(crate) fn log_prior(d_s: f64, r_s: f64, _: f64) -> f64 {
        let place = d_s * (1.0 / FRAME_S) + r_s;
        // SAFETY: units have 6 to 80 frames, so this is a number from 0.4 to 149.6.
        let place = unsafe { place.to_int_unchecked::<i32>() };
        DURATIONS.with(|d| d[place as usize].get())
    }
}

/// In place of cache.rs: the lent scores.
pub mod cache {
    use super::*;
    use crate::evidence::Tbu;

    #[derive(Clone, Copy)]
    pub(crate) struct TargetKey(u8);

    pub(crate) struct Scorer<'a> {
        pack: &'a LanguagePack,
        tbus: &'a [Tbu],
    }

    pub(crate) fn missed(_: &ToneTarget, _: f32) -> ToneJudgement {
        ToneJudgement { row: None }
    }

    pub(crate) fn unmeasured(_: &ToneTarget, _: MeasureIssue, _: f32) -> ToneJudgement {
        ToneJudgement { row: None }
    }

    impl<'a> Scorer<'a> {
        pub(crate) fn new(
            _: &'a Analysis,
            pack: &'a LanguagePack,
            _: &'a GradingTarget,
            tbus: &'a [Tbu],
        ) -> Self {
            Scorer { pack, tbus }
        }

        pub(crate) fn unvoiced_llr(&self) -> f32 {
            self.pack.unvoiced
        }

        pub(crate) fn key(
            &mut self,
            t: &ToneTarget,
            _: &TargetContext,
        ) -> Result<TargetKey, AssessError> {
            Ok(TargetKey(t.tone))
        }

        pub(crate) fn llr(&mut self, n: usize, key: TargetKey) -> Result<f32, AssessError> {
            Ok(self.pack.scores[n * self.pack.columns + usize::from(key.0)])
        }

        pub(crate) fn fit(
            &mut self,
            n: usize,
            _: &ToneTarget,
            _: &TargetContext,
        ) -> Result<SyllableFit, AssessError> {
            Ok(SyllableFit {
                span: self.tbus[n].span.clone(),
                judgement: ToneJudgement {
                    row: Some(self.pack.rows[n]),
                },
            })
        }
    }
}
