//! The stored sample that `crates/replay` replays: cases one after the other, in u32 words, little-endian, and bytes.
//!
//! A case has five words: the entry (1 `decode`, 2 `rate_s`, 3 `tbu_spans`, 4 `joins`, 5 `creaky_tail`, 6 `most_units`), how many bytes
//! follow, the number of the refusal or 0, what is returned where there is none, and how many words the call leaves in lent memory.
//! Those words follow, and then the arguments. Of a record only those bytes are stored that differ from the records before it, in
//! pieces, so that a damaged copy takes a few bytes, and a second call on a record none.

use crate::calls::{Answer, Call};
use crate::entry::ENTRY_WORDS;
use crate::most_units::{self, Most};
use crate::ours::Decoded;

/// The longest record of a case, and how many equal bytes part two pieces at least.
const MOST: usize = 65_540;
const APART: usize = 8;

pub struct Sample {
    pub bytes: Vec<u8>,
    /// of each entry how many cases there are, and how many of them are refused
    counts: [(usize, usize); 7],
    /// the records so far, each laid over those before it from the first byte on
    space: Vec<u8>,
}

impl Default for Sample {
    fn default() -> Self {
        Sample {
            bytes: Vec::new(),
            counts: [(0, 0); 7],
            space: vec![0; MOST],
        }
    }
}

impl Sample {
    /// Decoding: the lengths of the record, the two work areas and the output, and then of each piece that differs its place, its
    /// length and its bytes.
    pub fn record(&mut self, record: &[u8], lengths: (usize, usize, usize), decoded: &Decoded) {
        let (best, back, out) = lengths;
        let mut body = words(&[record.len(), best, back, out].map(|n| n as u32));
        body.extend(self.lay(record));
        let entries = |w: Vec<u32>| ((w.len() / ENTRY_WORDS) as u32, w);
        self.case(1, body, &decoded.clone().map(entries));
    }

    /// Another entry: the lengths of what is lent, the figures, and the lists or masks. The second mask goes on to the case's end.
    pub fn call(&mut self, call: &Call, answer: &Answer) {
        match call {
            Call::Rate(frames, default_s) => {
                let bits = default_s.to_bits();
                let head = [frames.len() as u32, bits as u32, (bits >> 32) as u32];
                self.case(2, [words(&head), words(frames)].concat(), answer);
            }
            Call::Spans(nuclei, bounds, lo, hi, room) => {
                let [n, b, w] = [nuclei.len(), bounds.len(), *room].map(|n| n as u32);
                let head = words(&[n, b, w, *lo, *hi]);
                self.case(3, [head, words(nuclei), words(bounds)].concat(), answer);
            }
            Call::Joins(voice, pitched, start, end) => {
                let head = words(&[voice.len() as u32, *start, *end]);
                self.case(4, [&head[..], voice, pitched].concat(), answer);
            }
            Call::Tail(start, end, next, pitched, vowel_speech) => {
                let next = next.unwrap_or(u32::MAX);
                let head = words(&[pitched.len() as u32, *start, *end, next]);
                self.case(5, [&head[..], pitched, vowel_speech].concat(), answer);
            }
        }
    }

    /// The most units: the record's length, the stage word and the strictness word, and then the pieces as for decoding. What is
    /// returned is the number that comes through the C interface.
    pub fn most_units(
        &mut self,
        record: &[u8],
        (stage, strict): (u32, u32),
        answer: &most_units::Answer,
    ) {
        let mut body = words(&[record.len() as u32, stage, strict]);
        body.extend(self.lay(record));
        let returned = |most: &Most| match most {
            Most::NoPath => i32::MAX as u32,
            Most::Units(units) => *units,
        };
        let answer = answer.as_ref().map(|most| (returned(most), Vec::new()));
        self.case(6, body, &answer.map_err(|number| *number));
    }

    /// Lays a record over those before it: of each piece that differs its place, its length and its bytes.
    fn lay(&mut self, record: &[u8]) -> Vec<u8> {
        let mut body = Vec::new();
        for (at, len) in pieces(&self.space, record) {
            body.extend(words(&[at as u32, len as u32]));
            body.extend(&record[at..at + len]);
        }
        self.space[..record.len()].copy_from_slice(record);
        body
    }

    /// What `crates/replay` is to print.
    pub fn printed(&self) -> String {
        let names = [
            "decode",
            "rate_s",
            "tbu_spans",
            "joins",
            "creaky_tail",
            "most_units",
        ];
        let line = |(name, (n, refused)): (_, &(usize, usize))| {
            format!("{name}: {n} replayed, {refused} of them refused, {n} agree\n")
        };
        names.iter().zip(&self.counts[1..]).map(line).collect()
    }

    fn case(&mut self, entry: u32, arguments: Vec<u8>, answer: &Answer) {
        let (refusal, returned, left) = match answer {
            Ok((returned, left)) => (0, *returned, &left[..]),
            Err(number) => (*number as u32, 0, &[][..]),
        };
        self.counts[entry as usize].0 += 1;
        self.counts[entry as usize].1 += usize::from(refusal > 0);
        let len = (4 * left.len() + arguments.len()) as u32;
        let head = words(&[entry, len, refusal, returned, left.len() as u32]);
        self.bytes.extend([head, words(left), arguments].concat());
    }
}

fn words(from: &[u32]) -> Vec<u8> {
    from.iter().flat_map(|w| w.to_le_bytes()).collect()
}

/// Where the record differs from the bytes that are there: places and lengths.
fn pieces(there: &[u8], record: &[u8]) -> Vec<(usize, usize)> {
    let mut pieces: Vec<(usize, usize)> = Vec::new();
    for at in (0..record.len()).filter(|&at| there[at] != record[at]) {
        match pieces.last_mut() {
            Some((start, len)) if at < *start + *len + APART => *len = at + 1 - *start,
            _ => pieces.push((at, 1)),
        }
    }
    pieces
}
