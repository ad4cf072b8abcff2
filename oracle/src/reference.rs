//! The original's answer for a phrase: the ranking of its `decode` over `Decoder::score`, as result words.

use crate::closed::{best_path, Decoder, Filler, Pass};
use crate::entry::Entry;
use crate::evidence::{tbus, Extended, Tbu};
use crate::phrase::Phrase;
use crate::*;

const NO_ROW: u32 = u32::MAX;

/// What the original is given: the frames as listed, or those within the mask only, as document 01 says. Spans are
/// taken over all listed frames either way.
#[derive(Clone, Copy, PartialEq, Eq)]
pub enum Given {
    AsListed,
    WithinMask,
}

fn analysis(p: &Phrase, nuclei: &[u32], boundaries: &[u32]) -> Analysis {
    Analysis {
        nuclei: nuclei.iter().map(|&frame| Nucleus { frame }).collect(),
        boundaries: boundaries.to_vec(),
        energy: EnergyTrack {
            speech: p.mask.clone(),
            voice: Vec::new(),
        },
        f0: F0Track { frames: Vec::new() },
        sonority: Vec::new(),
        speech: p.speech.map(|(start, end)| SpeechRegion { start, end }),
        register: (),
    }
}

/// A stage as the original is given it: the frames of its anchors, their evidence and their rows in the record, its boundaries and
/// durations.
struct Side<'a> {
    frames: Vec<u32>,
    tbus: Vec<Tbu>,
    rows: Vec<u32>,
    bounds: &'a [u32],
    durations: &'a [f64; 75],
}

fn nuclei_side(p: &Phrase, given: Given) -> Side<'_> {
    side(p, given, &p.nuclei, 0, &p.boundaries, &p.durations[0])
}

fn added_side(p: &Phrase, given: Given) -> Option<Side<'_>> {
    let first_row = p.nuclei.len();
    let side = || side(p, given, &p.anchors, first_row, &p.added, &p.durations[1]);
    (!p.anchors.is_empty()).then(side)
}

fn side<'a>(
    p: &Phrase,
    given: Given,
    frames: &[u32],
    first_row: usize,
    bounds: &'a [u32],
    durations: &'a [f64; 75],
) -> Side<'a> {
    let spans = tbus(&analysis(p, frames, bounds));
    let taken = |i: &usize| given == Given::AsListed || p.within_mask(frames[*i]);
    let places: Vec<usize> = (0..frames.len()).filter(taken).collect();
    Side {
        frames: places.iter().map(|&i| frames[i]).collect(),
        tbus: places.iter().map(|&i| spans[i].clone()).collect(),
        rows: places.iter().map(|&i| (first_row + i) as u32).collect(),
        bounds,
        durations,
    }
}

/// The original's counts and costs, with the anchors of a stage.
fn filler(p: &Phrase, side: &Side, nuclei: &Side) -> Filler {
    Filler::with_anchors(
        &p.mask,
        &side.frames,
        &nuclei.frames,
        p.per_frame,
        p.insertion_llr,
    )
}

/// The `path.score` of what the original's `best_path` finds in a stage, if anything.
fn path_score(p: &Phrase, side: &Side, filler: &Filler, pass: Pass, columns: &[u8]) -> Option<f64> {
    let path = best_path::<()>(side.bounds, filler, columns.len(), pass, |i, j, s| {
        let (from, to) = (side.bounds[i], side.bounds[j]);
        let score = match filler.nucleus_in(from, to) {
            Some(n) => p.scores[side.rows[n] as usize][usize::from(columns[s])],
            None => p.unvoiced,
        };
        Ok(f64::from(score) + side.durations[(to - from) as usize - 6])
    });
    path.unwrap().map(|path| path.score)
}

/// The number of the first pass in which there is a path, in the order of the original's `search`, and its sum; 4 or 5 where there is
/// none, and the product.
fn pass_and_sum(p: &Phrase, nuclei: &Side, added: Option<&Side>, columns: &[u8]) -> (u32, f64) {
    let product = p.unvoiced_sum(columns.len());
    let first = filler(p, nuclei, nuclei);
    if first.nuclei(0, first.frames()) == 0 {
        return (5, product);
    }
    if p.speech.is_none() {
        return (4, product);
    }
    let passes = match added {
        Some(added) => vec![
            (0, nuclei, Pass::Strict),
            (1, added, Pass::Strict),
            (2, added, Pass::Relaxed),
        ],
        None => vec![(0, nuclei, Pass::Strict), (3, nuclei, Pass::Relaxed)],
    };
    for (number, side, pass) in passes {
        let filler = filler(p, side, nuclei);
        if let Some(sum) = path_score(p, side, &filler, pass, columns) {
            return (number, sum);
        }
    }
    (4, product)
}

/// What the original's decoder is given for a phrase: all that its `decode` has before it makes the decoder.
pub struct Inputs {
    analysis: Analysis,
    pack: LanguagePack,
    table: Vec<Tbu>,
    extended: Option<Extended>,
    candidates: Vec<Candidate>,
    durations: [[f64; 75]; 2],
}

impl Inputs {
    pub fn of(p: &Phrase, given: Given) -> Inputs {
        let (nuclei, added) = (nuclei_side(p, given), added_side(p, given));
        Inputs::from_sides(p, &nuclei, added.as_ref())
    }

    fn from_sides(p: &Phrase, nuclei: &Side, added: Option<&Side>) -> Inputs {
        let mut table = nuclei.tbus.clone();
        let mut rows = nuclei.rows.clone();
        let extended = added.map(|a| {
            table.extend(a.tbus.iter().cloned());
            rows.extend(&a.rows);
            Extended {
                anchors: a.frames.clone(),
                bounds: p.added.clone(),
                tbus: a.tbus.clone(),
            }
        });
        let decode = DecodeParams {
            filler_per_frame: p.per_frame,
            insertion_llr: p.insertion_llr,
            default_rate_s: 0.0,
            dur_sigma: 0.0,
        };
        let candidate = |(id, columns): &(u32, Vec<u8>)| Candidate {
            id: CandidateId(*id),
            targets: columns.iter().map(|&tone| ToneTarget { tone }).collect(),
        };
        Inputs {
            analysis: analysis(p, &nuclei.frames, &p.boundaries),
            pack: LanguagePack {
                calibration: Calibration { decode },
                unvoiced: p.unvoiced,
                scores: rows
                    .iter()
                    .flat_map(|&row| p.scores[row as usize].iter().copied())
                    .collect(),
                columns: p.columns,
                rows,
            },
            table,
            extended,
            candidates: p.candidates.iter().map(candidate).collect(),
            durations: p.durations,
        }
    }

    /// Lends the stand-ins this phrase's duration tables; they serve every [`Inputs::scores`] up to the next phrase's.
    pub fn lend_durations(&self) {
        lend_durations(&self.durations);
    }

    /// Every candidate planned, scored and ranked, as the original's `decode` does from where it makes the decoder: all
    /// plans before the first score, then a stable order, highest first.
    pub fn scores(&self) -> Vec<Scored> {
        begin_decoder();
        let extended = self.extended.as_ref();
        let mut decoder = Decoder::new(
            &self.analysis,
            &self.pack,
            &GradingTarget,
            &self.table,
            extended,
        );
        let plans: Vec<_> = self
            .candidates
            .iter()
            .map(|c| decoder.plan(c).unwrap())
            .collect();
        let mut scores: Vec<Scored> = self
            .candidates
            .iter()
            .zip(&plans)
            .map(|(c, keys)| Scored {
                score: decoder.score(c, keys).unwrap(),
                sum: unclamped(),
            })
            .collect();
        scores.sort_by(|x, y| y.score.llr.total_cmp(&x.score.llr));
        scores
    }
}

/// What the original says of a candidate, and the sum that it clamps for it.
pub struct Scored {
    pub score: CandidateScore,
    pub sum: f64,
}

/// The result words of every candidate, ranked.
pub fn decode(p: &Phrase, given: Given) -> Vec<u32> {
    let (nuclei, added) = (nuclei_side(p, given), added_side(p, given));
    let inputs = Inputs::from_sides(p, &nuclei, added.as_ref());
    inputs.lend_durations();
    let entry = |scored: &Scored| {
        let with_id = |c: &&(u32, Vec<u8>)| c.0 == scored.score.id.0;
        let (_, columns) = p.candidates.iter().find(with_id).unwrap();
        let (pass, sum) = pass_and_sum(p, &nuclei, added.as_ref(), columns);
        let bits = |sum: f64, llr: f32| (sum.to_bits(), llr.to_bits());
        assert_eq!(
            bits(sum, clamp_log(sum)),
            bits(scored.sum, scored.score.llr),
            "the original disagrees with itself"
        );
        entry(scored, pass).words()
    };
    inputs.scores().iter().flat_map(entry).collect()
}

fn entry(Scored { score, sum }: &Scored, pass: u32) -> Entry {
    let unit = |fit: &SyllableFit| {
        let row = fit.judgement.row.unwrap_or(NO_ROW);
        [fit.span.start_frame, fit.span.end_frame, row]
    };
    Entry {
        id: score.id.0,
        llr: score.llr,
        pass,
        sum: *sum,
        units: score.syllables.iter().map(unit).collect(),
    }
}
