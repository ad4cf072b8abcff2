//! What a phrase record means, read from its bytes. Only for records that are accepted.

#[derive(Clone, Debug, PartialEq)]
pub struct Phrase {
    pub mask: Vec<bool>,
    pub nuclei: Vec<u32>,
    pub boundaries: Vec<u32>,
    pub anchors: Vec<u32>,
    pub added: Vec<u32>,
    pub columns: usize,
    /// by row, then column
    pub scores: Vec<Vec<f32>>,
    /// id and columns
    pub candidates: Vec<(u32, Vec<u8>)>,
    pub per_frame: f64,
    pub insertion_llr: f64,
    pub unvoiced: f32,
    pub speech: Option<(u32, u32)>,
    pub durations: [[f64; 75]; 2],
}

fn bytes<const N: usize>(record: &[u8], at: usize) -> [u8; N] {
    record[at..at + N].try_into().unwrap()
}

fn u32_at(record: &[u8], at: usize) -> u32 {
    u32::from_le_bytes(bytes(record, at))
}

fn f32_at(record: &[u8], at: usize) -> f32 {
    f32::from_le_bytes(bytes(record, at))
}

fn f64_at(record: &[u8], at: usize) -> f64 {
    f64::from_le_bytes(bytes(record, at))
}

impl Phrase {
    pub fn parse(record: &[u8]) -> Phrase {
        let end = record.len() - 64;
        let word = |k: usize| u32_at(record, end + 4 * k) as usize;
        let start = |k: usize| end - word(k);
        let list = |k: usize| -> Vec<u32> {
            (0..word(k))
                .map(|i| u32_at(record, start(k + 1) + 4 * i))
                .collect()
        };
        let (nuclei, anchors) = (list(3), list(7));
        let columns = word(11);
        let scores = (0..nuclei.len() + anchors.len())
            .map(|r| {
                (0..columns)
                    .map(|c| f32_at(record, start(12) + 4 * (r * columns + c)))
                    .collect()
            })
            .collect();
        let candidates = (0..word(13))
            .map(|i| {
                let at = start(14) + 24 * i;
                let k = u32_at(record, at + 4) as usize;
                (u32_at(record, at), record[at + 8..at + 8 + k].to_vec())
            })
            .collect();
        let costs = start(15);
        let table = |at: usize| std::array::from_fn(|i| f64_at(record, costs + at + 8 * i));
        let edges = (u32_at(record, costs + 20), u32_at(record, costs + 24));
        Phrase {
            mask: (0..word(1)).map(|i| record[start(2) + i] != 0).collect(),
            boundaries: list(5),
            added: list(9),
            nuclei,
            anchors,
            columns,
            scores,
            candidates,
            per_frame: f64_at(record, costs),
            insertion_llr: f64_at(record, costs + 8),
            unvoiced: f32_at(record, costs + 16),
            speech: (edges != (u32::MAX, u32::MAX)).then_some(edges),
            durations: [table(28), table(628)],
        }
    }

    /// Whether a listed nucleus or anchor lies on a 0 byte of the mask, which the original keeps and document 01 drops.
    pub fn lists_masked_out(&self) -> bool {
        let out = |f: &u32| self.mask.get(*f as usize) == Some(&false);
        self.nuclei.iter().any(out) || self.anchors.iter().any(out)
    }

    pub fn within_mask(&self, frame: u32) -> bool {
        self.mask.get(frame as usize) == Some(&true)
    }

    /// The sum of so many units without a path: the product in f32, widened.
    pub fn unvoiced_sum(&self, units: usize) -> f64 {
        f64::from(units as f32 * self.unvoiced)
    }
}
