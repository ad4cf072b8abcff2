//! The two sides on one record, each as its caller has it: ours is lent the record's bytes and memory, the original is
//! given what its `decode` has before it makes the decoder.

use crate::timing::{Rounds, Times};
use oracle::entry::{entries, ENTRY_WORDS};
use oracle::maker::encode;
use oracle::ours::{decode, WORK_CELLS};
use oracle::parts::original_spans;
use oracle::phrase::Phrase;
use oracle::reference::{self, Given, Inputs, Scored};
use oracle::TbuSpan;

pub struct Ours {
    record: Vec<u8>,
    best: Vec<f64>,
    back: Vec<u32>,
    out: Vec<u32>,
}

impl Ours {
    pub fn of(p: &Phrase) -> Ours {
        Ours {
            record: encode(p),
            best: vec![0.0; WORK_CELLS],
            back: vec![0; WORK_CELLS],
            out: vec![0; 16 * ENTRY_WORDS],
        }
    }

    /// One call: the record is checked, the rows' spans are worked out, every candidate is decoded and ranked.
    pub fn run(&mut self) -> i32 {
        decode(&self.record, &mut self.best, &mut self.back, &mut self.out)
    }
}

/// A stage's frames and boundaries, and the edges of speech.
struct Stage {
    frames: Vec<u32>,
    bounds: Vec<u32>,
    edges: (u32, u32),
}

impl Stage {
    fn spans(&self) -> Vec<TbuSpan> {
        original_spans(&self.frames, &self.bounds, self.edges.0, self.edges.1)
    }
}

pub struct Original {
    inputs: Inputs,
    stages: Vec<Stage>,
}

impl Original {
    /// The duration tables are lent to the stand-ins here, so only the side made last may be run.
    pub fn of(p: &Phrase) -> Original {
        let inputs = Inputs::of(p, Given::AsListed);
        inputs.lend_durations();
        let edges = p.speech.unwrap_or((0, 0));
        let stage = |frames: &Vec<u32>, bounds: &Vec<u32>| Stage {
            frames: frames.clone(),
            bounds: bounds.clone(),
            edges,
        };
        let mut stages = vec![stage(&p.nuclei, &p.boundaries)];
        if !p.anchors.is_empty() {
            stages.push(stage(&p.anchors, &p.added));
        }
        Original { inputs, stages }
    }

    /// One decode, of what is already checked: the rows' spans are worked out, every candidate is decoded and ranked. The
    /// marks that the original takes with the spans are left out, since ours takes them in entries of their own.
    pub fn run(&self) -> (Vec<Vec<TbuSpan>>, Vec<Scored>) {
        let spans = self.stages.iter().map(Stage::spans).collect();
        (spans, self.inputs.scores())
    }
}

/// Checks that both sides answer alike, in every word; gives the pass of each candidate.
pub fn agreed_passes(name: &str, p: &Phrase) -> Vec<u32> {
    let mut ours = Ours::of(p);
    let count = ours.run();
    assert_eq!(count, p.candidates.len() as i32, "{name} is refused");
    let words = &ours.out[..p.candidates.len() * ENTRY_WORDS];
    assert_eq!(
        words,
        reference::decode(p, Given::AsListed),
        "{name}: the two sides differ"
    );
    let timed = Original::of(p).run().1;
    let timed = timed
        .iter()
        .map(|s| (s.score.llr.to_bits(), s.sum.to_bits()));
    let compared = entries(words).map(|e| (e.llr.to_bits(), e.sum.to_bits()));
    assert!(
        timed.eq(compared),
        "{name}: what is timed is not what was compared"
    );
    entries(words).map(|e| e.pass).collect()
}

/// The times of ours and of the original for a single decode.
pub fn decode_times(p: &Phrase, count: usize) -> (Times, Times) {
    let (mut ours, original) = (Ours::of(p), Original::of(p));
    let mut rounds = Rounds::default();
    for _ in 0..count {
        rounds.run(|| ours.run(), || original.run());
    }
    rounds.times()
}
