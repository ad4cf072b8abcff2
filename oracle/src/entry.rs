//! A result entry: what it says, and its words as document 01 and document 02's Ask 2 lay them out.

/// The words before the triples: id, llr bits, pass, unit count, and the low and the high half of the unclamped sum's bits.
const HEAD_WORDS: usize = 6;
/// A triple: start, end, row.
const UNIT_WORDS: usize = 3;
/// Triples for sixteen units, which makes 54 words in all.
pub const ENTRY_WORDS: usize = HEAD_WORDS + 16 * UNIT_WORDS;

#[derive(Debug)]
pub struct Entry {
    pub id: u32,
    pub llr: f32,
    pub pass: u32,
    /// before the clamp
    pub sum: f64,
    /// start, end, row
    pub units: Vec<[u32; UNIT_WORDS]>,
}

impl Entry {
    /// Unused triples are 0.
    pub fn words(&self) -> [u32; ENTRY_WORDS] {
        let sum = self.sum.to_bits();
        let mut words = [0; ENTRY_WORDS];
        words[..HEAD_WORDS].copy_from_slice(&[
            self.id,
            self.llr.to_bits(),
            self.pass,
            self.units.len() as u32,
            sum as u32,
            (sum >> 32) as u32,
        ]);
        let places = words[HEAD_WORDS..].chunks_mut(UNIT_WORDS);
        for (place, unit) in places.zip(&self.units) {
            place.copy_from_slice(unit);
        }
        words
    }

    /// Passes 4 and 5 are those without.
    pub fn has_path(&self) -> bool {
        self.pass < 4
    }

    fn of(words: &[u32]) -> Entry {
        let (head, triples) = words.split_at(HEAD_WORDS);
        let [id, llr, pass, k, low, high]: [u32; HEAD_WORDS] = head.try_into().unwrap();
        let units = triples.chunks(UNIT_WORDS).take(k as usize);
        Entry {
            id,
            llr: f32::from_bits(llr),
            pass,
            sum: f64::from_bits(u64::from(high) << 32 | u64::from(low)),
            units: units.map(|unit| unit.try_into().unwrap()).collect(),
        }
    }
}

/// The entries that these words are.
pub fn entries(words: &[u32]) -> impl Iterator<Item = Entry> + '_ {
    words.chunks(ENTRY_WORDS).map(Entry::of)
}
