//! Makes phrase records: sections in trailer order from byte 0, or sharing bytes, then the trailer.

use crate::phrase::Phrase;

/// Where each section stands: its start, in the order of the trailer, costs last.
pub const SECTIONS: usize = 8;

pub fn encode(p: &Phrase) -> Vec<u8> {
    laid(p, &sections(p), [0, 1, 2, 3, 4, 5, 6, 7], |_, _| None)
}

/// The same phrase with sections that share bytes: a section whose bytes stand in the record already stands there.
pub fn encode_shared(p: &Phrase) -> Vec<u8> {
    let find = |record: &[u8], section: &[u8]| {
        (0..=record.len().checked_sub(section.len())?).find(|&at| record[at..].starts_with(section))
    };
    laid(p, &sections(p), [7, 5, 6, 2, 4, 1, 3, 0], find)
}

fn sections(p: &Phrase) -> [Vec<u8>; SECTIONS] {
    let list = |frames: &[u32]| frames.iter().flat_map(|f| f.to_le_bytes()).collect();
    [
        p.mask.iter().map(|&m| u8::from(m)).collect(),
        list(&p.nuclei),
        list(&p.boundaries),
        list(&p.anchors),
        list(&p.added),
        p.scores
            .iter()
            .flatten()
            .flat_map(|s| s.to_le_bytes())
            .collect(),
        candidates(p),
        costs(p),
    ]
}

fn laid(
    p: &Phrase,
    sections: &[Vec<u8>; SECTIONS],
    order: [usize; SECTIONS],
    find: impl Fn(&[u8], &[u8]) -> Option<usize>,
) -> Vec<u8> {
    let mut record = Vec::new();
    let mut starts = [0usize; SECTIONS];
    for k in order {
        let found = find(&record, &sections[k]);
        starts[k] = found.unwrap_or(record.len());
        if found.is_none() {
            record.extend(&sections[k]);
        }
    }
    let columns = p.scores.first().map_or(p.columns, Vec::len);
    let counts = [
        p.mask.len(),
        p.nuclei.len(),
        p.boundaries.len(),
        p.anchors.len(),
        p.added.len(),
        columns,
        p.candidates.len(),
    ];
    let end = record.len();
    let mut word = |w: usize| record.extend((w as u32).to_le_bytes());
    word(1);
    for (count, start) in counts.iter().zip(&starts) {
        word(*count);
        word(end - start);
    }
    word(end - starts[7]);
    // so that valgrind sees a read past its end
    record.shrink_to_fit();
    record
}

fn candidates(p: &Phrase) -> Vec<u8> {
    let mut bytes = Vec::new();
    for (id, columns) in &p.candidates {
        bytes.extend(id.to_le_bytes());
        bytes.extend((columns.len() as u32).to_le_bytes());
        let mut used = [0; 16];
        used[..columns.len()].copy_from_slice(columns);
        bytes.extend(used);
    }
    bytes
}

fn costs(p: &Phrase) -> Vec<u8> {
    let mut bytes = Vec::new();
    bytes.extend(p.per_frame.to_le_bytes());
    bytes.extend(p.insertion_llr.to_le_bytes());
    bytes.extend(p.unvoiced.to_le_bytes());
    let (start, end) = p.speech.unwrap_or((u32::MAX, u32::MAX));
    bytes.extend(start.to_le_bytes());
    bytes.extend(end.to_le_bytes());
    bytes.extend(p.durations.iter().flatten().flat_map(|d| d.to_le_bytes()));
    bytes
}

/// Document 01's sample phrase.
pub fn sample() -> Phrase {
    let mut first = [0.0; 75];
    first[4] = -0.25;
    Phrase {
        mask: vec![true; 20],
        nuclei: vec![7],
        boundaries: vec![4, 14],
        anchors: vec![],
        added: vec![],
        columns: 1,
        scores: vec![vec![3.0]],
        candidates: vec![(9, vec![0, 0]), (3, vec![0])],
        per_frame: 0.5,
        insertion_llr: -2.0,
        unvoiced: -4.0,
        speech: Some((4, 14)),
        durations: [first, [0.0; 75]],
    }
}
