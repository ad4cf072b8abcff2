//! exhaustive [small]: our side through the C interface against the original on all small inputs of each kind below, none of
//! them drawn; the most units against all paths written out, and in changed samples against longest paths over counts. Prints for
//! each kind how many were compared and how many differ; the exit status is 0 only for none.
//! `small` goes through fewer, for a run under valgrind.

use oracle::entry::ENTRY_WORDS;
use oracle::every::{lists, lists_of, picks};
use oracle::generate::HALF_LEAST;
use oracle::maker::{encode, sample};
use oracle::most_units;
use oracle::ours::{self, Desk, WORK_CELLS};
use oracle::phrase::Phrase;
use oracle::tally::{conclude, Answers, MostUnits, Tally};
use oracle::wanted;
use std::mem::take;
use std::process::exit;

/// Frames on both sides of the highest that is allowed.
const BORDERS: [u32; 4] = [0, 4095, 4096, u32::MAX - 1];

/// Every pair of the masks with every start and end.
fn joins(tally: &mut Tally, masks: &[Vec<u8>], frames: &[u32]) {
    for (voice, pitched) in pairs(masks, masks) {
        for (&start, &end) in pairs(frames, frames) {
            let wanted = wanted::joins(voice, pitched, start, end);
            let got = ours::joins(voice, pitched, start, end);
            tally.compare(&wanted, &got, || {
                format!("joins {voice:?} {pitched:?} {start} {end}")
            });
        }
    }
}

/// Every pair of the masks with every start and end, with no next nucleus and with each.
fn creaky_tail(tally: &mut Tally, masks: &[Vec<u8>], frames: &[u32]) {
    let nexts: Vec<Option<u32>> = [None]
        .into_iter()
        .chain(frames.iter().map(|&f| Some(f)))
        .collect();
    for (pitched, vowel) in pairs(masks, masks) {
        for (&start, &end) in pairs(frames, frames) {
            for &next in &nexts {
                let wanted = wanted::creaky_tail(start, end, next, pitched, vowel);
                let got = ours::creaky_tail(start, end, next, pitched, vowel);
                tally.compare(&wanted, &got, || {
                    format!("creaky_tail {start} {end} {next:?} {pitched:?} {vowel:?}")
                });
            }
        }
    }
}

fn rate_s(tally: &mut Tally, frame_lists: &[Vec<u32>]) {
    let defaults = [0.2, 0.0, -0.0, -1.0e6, 1_000_000.1, f64::NAN];
    for (frames, default) in pairs(frame_lists, &defaults) {
        let wanted = wanted::rate_s(frames, *default);
        let got = ours::rate_s(frames, *default).map(f64::to_bits);
        tally.compare(&wanted, &got, || format!("rate_s {frames:?} {default}"));
    }
}

/// Each with an output that is just long enough, and with one that is a word too short.
fn tbu_spans(tally: &mut Tally, nuclei: &[Vec<u32>], bounds: &[Vec<u32>], edges: &[u32]) {
    for (nuclei, bounds) in pairs(nuclei, bounds) {
        for (&lo, &hi) in pairs(edges, edges) {
            let words =
                wanted::tbu_spans(nuclei, bounds, lo, hi, usize::MAX).map_or(0, |w| w.len());
            for room in words.saturating_sub(1)..=words {
                let wanted = wanted::tbu_spans(nuclei, bounds, lo, hi, room);
                let got = ours::tbu_spans(nuclei, bounds, lo, hi, room);
                tally.compare(&wanted, &got, || {
                    format!("tbu_spans {nuclei:?} {bounds:?} {lo} {hi}, room {room}")
                });
            }
        }
    }
}

#[derive(Default)]
struct Records {
    tally: Tally,
    answers: Answers,
    desk: Desk,
}

impl Records {
    fn decode(&mut self, record: &[u8], best: usize, back: usize, out: usize) {
        let wanted = wanted::decode(record, best, back, out);
        self.answers.count(record, &wanted);
        let got = self.desk.decode(record, best, back, out);
        self.tally.compare(&Ok(wanted), &got, || {
            format!("record {record:?}, lent {best} {back} {out}")
        });
    }

    /// With lent buffers that are just long enough.
    fn phrase(&mut self, p: &Phrase) {
        let out = p.candidates.len() * ENTRY_WORDS;
        self.decode(&encode(p), WORK_CELLS, WORK_CELLS, out);
    }

    fn report(&self, kind: &str) -> usize {
        report(&format!("decode, {kind}, {}", self.answers), &self.tally)
    }
}

/// `per_frame`, `insertion_llr` and the unvoiced score.
type Figures = (f64, f64, f32);

/// Each of the three nothing, or 1 that a path loses by it.
fn all_figures() -> Vec<Figures> {
    lists_of(&[0.0f64, -1.0], 3)
        .iter()
        .map(|f| (f[0].abs(), f[1], f[2] as f32))
        .collect()
}

/// Phrases of one stage: boundaries 1 to 86 frames apart, on both sides of the limits of a unit, nuclei on boundaries,
/// between them, past the mask and on a 0 byte of it, with and without speech, and every candidate of one or two units over
/// two columns in each.
fn one_stage(records: &mut Records, most_boundaries: usize, figures: &[Figures]) {
    let mut silent_at_6 = vec![true; 87];
    silent_at_6[6] = false;
    let masks = [vec![true; 5], vec![true; 13], vec![true; 87], silent_at_6];
    let all_boundaries = picks(&[0, 5, 6, 12, 80, 86], most_boundaries);
    let all_nuclei = picks(&[0, 3, 6, 11, 85], 2);
    let candidates: Vec<(u32, Vec<u8>)> = (1..).zip(lists(&[0, 1], 2).split_off(1)).collect();
    let mut durations = [[0.0; 75]; 2];
    durations[0][12 - 6] = -0.5;
    for (mask, boundaries) in pairs(&masks, &all_boundaries) {
        for (nuclei, speech) in pairs(&all_nuclei, &[None, Some((1, 12))]) {
            for scores in lists_of(&[0.0, 1.0], 2 * nuclei.len()) {
                for &(per_frame, insertion_llr, unvoiced) in figures {
                    records.phrase(&Phrase {
                        mask: mask.clone(),
                        nuclei: nuclei.clone(),
                        boundaries: boundaries.clone(),
                        anchors: vec![],
                        added: vec![],
                        columns: 2,
                        scores: scores.chunks(2).map(<[f32]>::to_vec).collect(),
                        candidates: candidates.clone(),
                        per_frame,
                        insertion_llr,
                        unvoiced,
                        speech: *speech,
                        durations,
                    });
                }
            }
        }
    }
}

/// Phrases of two stages, each with durations of its own, and with a candidate of one unit and one of two.
fn two_stages(records: &mut Records, most_boundaries: usize, figures: &[Figures]) {
    let mut silent_at_3 = vec![true; 13];
    silent_at_3[3] = false;
    let masks = [vec![true; 13], vec![true; 7], silent_at_3];
    let frames = picks(&[3, 6, 11], 2);
    let all_boundaries = picks(&[0, 6, 12], most_boundaries);
    let all_added = picks(&[0, 6, 12, 13], most_boundaries);
    let anchored = frames.iter().filter(|a| !a.is_empty());
    let stages: Vec<_> = pairs(&frames, &all_boundaries).collect();
    let added_stages: Vec<_> = anchored
        .flat_map(|a| all_added.iter().map(move |b| (a, b)))
        .collect();
    for (mask, (nuclei, boundaries)) in pairs(&masks, &stages) {
        for (anchors, added) in &added_stages {
            for scores in lists_of(&[0.0, 1.0], nuclei.len() + anchors.len()) {
                for &(per_frame, insertion_llr, unvoiced) in figures {
                    records.phrase(&Phrase {
                        mask: mask.clone(),
                        nuclei: nuclei.to_vec(),
                        boundaries: boundaries.to_vec(),
                        anchors: anchors.to_vec(),
                        added: added.to_vec(),
                        columns: 1,
                        scores: scores.iter().map(|&s| vec![s]).collect(),
                        candidates: vec![(1, vec![0]), (2, vec![0, 0])],
                        per_frame,
                        insertion_llr,
                        unvoiced,
                        speech: Some((1, 12)),
                        durations: [[0.0; 75], [-0.5; 75]],
                    });
                }
            }
        }
    }
}

/// Two boundaries with a nucleus between them, on a 0 byte of the mask or not; two candidates of one unit, each by its own score, and two
/// of more, for which there is no path. Only the first frame is outside a unit.
fn one_unit(voiced: bool, scores: &[f32], duration: f64, figures: Figures) -> Phrase {
    let (per_frame, insertion_llr, unvoiced) = figures;
    let mut mask = vec![true; 13];
    mask[7] = voiced;
    Phrase {
        mask,
        nuclei: vec![7],
        boundaries: vec![1, 13],
        anchors: vec![],
        added: vec![],
        columns: 2,
        scores: vec![scores.to_vec()],
        candidates: vec![(1, vec![0]), (2, vec![1]), (3, vec![0; 2]), (4, vec![1; 3])],
        per_frame,
        insertion_llr,
        unvoiced,
        speech: Some((1, 13)),
        durations: [[duration; 75]; 2],
    }
}

/// Sums at the borders of what llr shows: at the clamp and beyond it on both sides, both zeros, sums that narrow to a zero and that just
/// do not, and different sums that clamp or narrow to the same. Each pair of scores comes in either order.
fn sums(records: &mut Records, most_scores: usize) {
    let past_half = f64::from_bits(HALF_LEAST.to_bits() + 1);
    let scores = [
        0.0, 1.0e6, -1.0e6, -0.0, 999_999.9, -999_999.9, 1.0e-45, 1.0e-12, 0.1,
    ];
    let durations = [0.0, -0.0, -1.0, -1.0e6, -HALF_LEAST, -past_half];
    let per_frame = [0.0, -0.0, 1.0e3, -1.0e3, -1.0e-10, -HALF_LEAST, -past_half];
    let unvoiced = [0.0, -0.0, 0.1, -0.1, 1.0e6, -1.0e6, 1.0e-45];
    let figures: Vec<Figures> = pairs(&per_frame, &unvoiced)
        .flat_map(|(&f, &u)| [(f, 0.0, u), (f, -1.0, u)])
        .collect();
    for scores in lists_of(&scores[..most_scores], 2) {
        for (&duration, &figures) in pairs(&durations, &figures) {
            for voiced in [true, false] {
                records.phrase(&one_unit(voiced, &scores, duration, figures));
            }
        }
    }
}

/// Document 01's sample phrase, and the same with an added stage.
fn samples() -> [Vec<u8>; 2] {
    let mut added = sample();
    (added.anchors, added.added) = (vec![9], vec![4, 12, 18]);
    added.scores = vec![vec![3.0], vec![1.5]];
    [encode(&sample()), encode(&added)]
}

/// The record with each byte set to each of these values, and cut at either end.
fn changes(record: &[u8], values: &[u8], mut each: impl FnMut(&[u8])) {
    let mut changed = record.to_vec();
    for at in 0..record.len() {
        for &value in values {
            changed[at] = value;
            each(&changed);
        }
        changed[at] = record[at];
        // in memory of their own, so that valgrind sees a read past the end
        for cut in [&record[at..], &record[..at]] {
            each(&cut.to_vec());
        }
    }
}

/// The samples changed, and with lent buffers of each length around the limits.
fn changed_samples(records: &mut Records, values: &[u8]) {
    let out = 2 * ENTRY_WORDS;
    for record in samples() {
        changes(&record, values, |changed| {
            records.decode(changed, WORK_CELLS, WORK_CELLS, out)
        });
        let cells = [0, WORK_CELLS - 1, WORK_CELLS, WORK_CELLS + 1];
        for (&best, &back) in pairs(&cells, &cells) {
            (0..=out + 1).for_each(|out| records.decode(&record, best, back, out));
        }
    }
}

/// Stage words and strictness words.
const FOUR_PAIRS: [(u32, u32); 4] = [(0, 0), (0, 1), (1, 0), (1, 1)];

/// A stage by itself: its boundaries and its anchors.
type Stage<'a> = (&'a [u32], &'a [u32]);

fn two_stage_phrase(mask: &[bool], nuclei: Stage, added: Stage) -> Phrase {
    Phrase {
        mask: mask.to_vec(),
        nuclei: nuclei.1.to_vec(),
        boundaries: nuclei.0.to_vec(),
        anchors: added.1.to_vec(),
        added: added.0.to_vec(),
        columns: 1,
        scores: vec![vec![0.0]; nuclei.1.len() + added.1.len()],
        candidates: vec![(1, vec![0])],
        per_frame: 0.0,
        insertion_llr: 0.0,
        unvoiced: 0.0,
        speech: None,
        durations: [[0.0; 75]; 2],
    }
}

/// Calls for the most units: the numbers of the kind that is under way, and the answers of all kinds.
#[derive(Default)]
struct Fitting {
    tally: Tally,
    answers: MostUnits,
}

impl Fitting {
    fn record(
        &mut self,
        record: &[u8],
        (stage, strict): (u32, u32),
        wanted: Result<most_units::Answer, String>,
    ) {
        if let Ok(answer) = &wanted {
            self.answers.count(stage, strict, answer);
        }
        let got = ours::most_units(record, stage, strict);
        self.tally.compare(&wanted, &got, || {
            format!("most_units of {record:?}, stage {stage}, strict {strict}")
        });
    }

    /// The stage as the nuclei stage and, where it has anchors, as the added one, beside another in which two units fit.
    fn stage(&mut self, mask: &[bool], stage: Stage) {
        let beside: Stage = (&[2, 10, 18], &[4, 12]);
        let phrases = [
            two_stage_phrase(mask, stage, beside),
            two_stage_phrase(mask, beside, stage),
        ];
        let places = if stage.1.is_empty() { 1 } else { 2 };
        for (p, word) in phrases[..places].iter().zip([0, 1]) {
            let record = encode(p);
            for strict in [0, 1] {
                let most = most_units::by_all_paths(p, word, strict);
                self.record(&record, (word, strict), most.map(Ok));
            }
        }
    }

    fn report(&mut self, kind: &str) -> usize {
        let tally = take(&mut self.tally);
        report(&format!("most_units, {kind}"), &tally)
    }
}

/// Stages of boundaries 1 to 161 frames apart, on both sides of the limits of a unit, with anchors on boundaries and right before
/// them, between them, past the mask and on a 0 byte of it.
fn few_boundaries(fitting: &mut Fitting, most_boundaries: usize, most_anchors: usize) {
    let mut silent_at_6 = vec![true; 162];
    silent_at_6[6] = false;
    let masks = [vec![true; 162], silent_at_6, vec![true; 81], vec![]];
    let all_boundaries = picks(&[0, 5, 6, 11, 80, 81, 86, 161], most_boundaries);
    let all_anchors = picks(
        &[0, 4, 5, 6, 10, 50, 79, 80, 81, 85, 160, 161],
        most_anchors,
    );
    for (mask, boundaries) in pairs(&masks, &all_boundaries) {
        for anchors in &all_anchors {
            fitting.stage(mask, (boundaries, anchors));
        }
    }
}

/// Stages whose neighbouring boundaries are just far enough apart that a unit takes in one stretch only, from 14 stretches to more
/// than the cap, with an anchor in each, in all but one, and in one only.
fn up_to_the_cap(fitting: &mut Fitting, most_stretches: u32) {
    for stretches in 14..=most_stretches {
        let boundaries: Vec<u32> = (0..=stretches).map(|i| 41 * i).collect();
        let anchors: Vec<u32> = (0..stretches).map(|i| 41 * i + 40).collect();
        let mask = vec![true; 41 * stretches as usize];
        fitting.stage(&mask, (&boundaries, &anchors));
        fitting.stage(&mask, (&boundaries, &anchors[1..]));
        fitting.stage(&mask, (&boundaries, &anchors[..1]));
    }
}

/// The samples changed, against longest paths over counts: refusals, and lists that were made shorter.
fn changed_samples_fitting(fitting: &mut Fitting, values: &[u8]) {
    for record in samples() {
        changes(&record, values, |changed| {
            for (stage, strict) in FOUR_PAIRS {
                let wanted = most_units::wanted(changed, stage, strict);
                fitting.record(changed, (stage, strict), Ok(wanted));
            }
        });
    }
}

fn pairs<'a, A, B>(ones: &'a [A], others: &'a [B]) -> impl Iterator<Item = (&'a A, &'a B)> {
    ones.iter()
        .flat_map(move |one| others.iter().map(move |other| (one, other)))
}

/// Prints a kind's numbers; gives how many differ.
fn report(kind: &str, tally: &Tally) -> usize {
    println!(
        "{kind}: {} compared, {} differ",
        tally.compared, tally.differ
    );
    tally.differ
}

/// How far to go: all, or what a run under valgrind has time for.
#[derive(Clone, Copy)]
struct Size {
    small: bool,
}

impl Size {
    fn of(self, all: usize, few: usize) -> usize {
        if self.small {
            few
        } else {
            all
        }
    }

    fn marks(self) -> usize {
        let longest = self.of(8, 6);
        let (masks, edges) = (lists(&[0, 1], longest), frames_below(longest + 2));
        let unfit = lists(&[0, 1, 2], 2);
        let (mut joined, mut tails) = (Tally::default(), Tally::default());
        for (masks, frames) in [(&masks, &edges[..]), (&unfit, &BORDERS[..])] {
            joins(&mut joined, masks, frames);
            creaky_tail(&mut tails, masks, frames);
        }
        report("joins", &joined) + report("creaky_tail", &tails)
    }

    fn rates_and_spans(self) -> usize {
        let (mut rates, mut spans) = (Tally::default(), Tally::default());
        rate_s(&mut rates, &lists(&[0, 1, 2, 5, 4095, 4096], self.of(7, 4)));
        let longest = self.of(3, 2);
        let nuclei = lists(&frames_below(7), longest);
        let bounds = lists(&frames_below(8), longest);
        tbu_spans(&mut spans, &nuclei, &bounds, &frames_below(self.of(9, 4)));
        let borders = lists(&BORDERS, 2);
        tbu_spans(&mut spans, &borders, &borders, &BORDERS);
        report("rate_s", &rates) + report("tbu_spans", &spans)
    }

    fn records(self) -> usize {
        let figures = all_figures();
        let figures = &figures[..self.of(figures.len(), 1)];
        let values: Vec<u8> = (0..=u8::MAX).step_by(self.of(1, 85)).collect();
        let [mut one, mut two, mut border, mut changed] = [(); 4].map(|()| Records::default());
        one_stage(&mut one, self.of(4, 2), figures);
        two_stages(&mut two, self.of(3, 2), figures);
        sums(&mut border, self.of(9, 2));
        changed_samples(&mut changed, &values);
        one.report("one stage")
            + two.report("two stages")
            + border.report("sums at borders")
            + changed.report("changed samples")
    }

    fn most_units(self) -> usize {
        let values: Vec<u8> = (0..=u8::MAX).step_by(self.of(1, 85)).collect();
        let mut fitting = Fitting::default();
        few_boundaries(&mut fitting, self.of(5, 3), self.of(3, 2));
        let few = fitting.report("few boundaries");
        up_to_the_cap(&mut fitting, self.of(19, 17) as u32);
        let cap = fitting.report("up to the cap");
        changed_samples_fitting(&mut fitting, &values);
        let changed = fitting.report("changed samples");
        println!("most_units in all, {}", fitting.answers);
        few + cap + changed
    }
}

fn frames_below(end: usize) -> Vec<u32> {
    (0..end as u32).collect()
}

fn main() {
    let args: Vec<String> = std::env::args().skip(1).collect();
    let small = match args.iter().map(String::as_str).collect::<Vec<_>>()[..] {
        [] => false,
        ["small"] => true,
        _ => {
            eprintln!("exhaustive [small]");
            exit(2);
        }
    };
    let size = Size { small };
    conclude(size.marks() + size.rates_and_spans() + size.records() + size.most_units());
}
