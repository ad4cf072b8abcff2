//! Document 01's table "What the decoder says no with", written from its text: the number of the refusal, if any. How many words 11 asks
//! of the output is document 02's, Ask 2.

fn u32_at(record: &[u8], at: usize) -> u32 {
    u32::from_le_bytes(record[at..at + 4].try_into().unwrap())
}

fn f32_at(record: &[u8], at: usize) -> f64 {
    f64::from(f32::from_le_bytes(record[at..at + 4].try_into().unwrap()))
}

fn f64_at(record: &[u8], at: usize) -> f64 {
    f64::from_le_bytes(record[at..at + 8].try_into().unwrap())
}

/// The words of the trailer, and where the sections start.
struct Trailer<'a> {
    record: &'a [u8],
    end: usize,
}

impl Trailer<'_> {
    fn word(&self, k: usize) -> usize {
        u32_at(self.record, self.end + 4 * k) as usize
    }

    /// Whether the section that word k points to, of so many bytes, stands wholly before the trailer.
    fn reaches(&self, k: usize, bytes: usize) -> bool {
        (bytes..=self.end).contains(&self.word(k))
    }

    fn start(&self, k: usize) -> usize {
        self.end - self.word(k)
    }

    /// A list of frames, counted at word k.
    fn list(&self, k: usize) -> Vec<u32> {
        (0..self.word(k))
            .map(|i| u32_at(self.record, self.start(k + 1) + 4 * i))
            .collect()
    }
}

const LIMITS: [(usize, usize); 7] = [
    (1, 2048),
    (3, 32),
    (5, 64),
    (7, 64),
    (9, 64),
    (11, 64),
    (13, 16),
];

/// The refusal of a record with work areas and an output of these lengths.
pub fn refusal(record: &[u8], best: usize, back: usize, out: usize) -> Option<i32> {
    if !(64..=65536).contains(&record.len()) {
        return Some(1);
    }
    let t = Trailer {
        record,
        end: record.len() - 64,
    };
    let (n, a, c, m) = (t.word(3), t.word(7), t.word(11), t.word(13));
    if t.word(0) != 1 {
        return Some(2);
    }
    if LIMITS.iter().any(|&(k, most)| t.word(k) > most) || c == 0 || (a == 0 && t.word(9) > 0) {
        return Some(3);
    }
    let lists = [3, 5, 7, 9];
    let sections = lists.iter().all(|&k| t.reaches(k + 1, 4 * t.word(k)));
    if !t.reaches(2, t.word(1))
        || !sections
        || !t.reaches(12, 4 * (n + a) * c)
        || !t.reaches(14, 24 * m)
        || !t.reaches(15, 1228)
    {
        return Some(4);
    }
    let mask = &record[t.start(2)..t.start(2) + t.word(1)];
    let ordered = |l: Vec<u32>| l.iter().all(|&f| f <= 4095) && l.windows(2).all(|w| w[0] < w[1]);
    let costs = t.start(15);
    let (start, end) = (u32_at(record, costs + 20), u32_at(record, costs + 24));
    let edges = (start, end) == (u32::MAX, u32::MAX) || (start <= end && end <= 4095);
    if mask.iter().any(|&b| b > 1) || !lists.iter().all(|&k| ordered(t.list(k))) || !edges {
        return Some(5);
    }
    let within = |x: f64, most: f64| (-most..=most).contains(&x);
    let scores = (0..(n + a) * c).all(|i| within(f32_at(record, t.start(12) + 4 * i), 1.0e6));
    let figures = within(f64_at(record, costs), 1000.0)
        && within(f64_at(record, costs + 8), 1000.0)
        && within(f32_at(record, costs + 16), 1.0e6);
    let table = |at: usize| (0..75).all(|i| (-1.0e6..=0.0).contains(&f64_at(record, at + 8 * i)));
    if !scores || !figures || !table(costs + 28) || (a > 0 && !table(costs + 628)) {
        return Some(6);
    }
    if m == 0 {
        return Some(7);
    }
    for i in 0..m {
        let at = |i: usize| t.start(14) + 24 * i;
        let k = u32_at(record, at(i) + 4) as usize;
        if (0..i).any(|j| u32_at(record, at(j)) == u32_at(record, at(i))) {
            return Some(8);
        }
        if k == 0 || k > 16 {
            return Some(9);
        }
        if record[at(i) + 8..at(i) + 8 + k]
            .iter()
            .any(|&column| usize::from(column) >= c)
        {
            return Some(10);
        }
    }
    (best < 1088 || back < 1088 || out < 54 * m).then_some(11)
}
