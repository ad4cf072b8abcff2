//! Damaged copies of good records, around every limit, and lent buffers of every length that matters.

use crate::random::Random;

/// One or two changes: a trailer word moved a little or set to a border, a byte, an aligned float or id, the length.
pub fn damage(r: &mut Random, record: &mut Vec<u8>) {
    for _ in 0..r.between(1, 2) {
        let n = record.len();
        match r.below(8) {
            0 | 1 if n >= 64 => {
                let at = n - 64 + 4 * r.below(16);
                let old = u32::from_le_bytes(record[at..at + 4].try_into().unwrap());
                let end = (n - 64) as u32;
                let new = match r.below(4) {
                    0 => old.wrapping_add(r.pick(&[1, u32::MAX, 2, 4, 63])),
                    1 => r.pick(&[0, 1, 16, 17, 32, 33, 64, 65, 2048, 2049, u32::MAX]),
                    2 => r.pick(&[end, end.wrapping_add(1), end.wrapping_sub(1)]),
                    _ => old / 2,
                };
                record[at..at + 4].copy_from_slice(&new.to_le_bytes());
            }
            2 if n > 64 => {
                let at = r.below(n - 64);
                record[at] = r.pick(&[0, 1, 2, 0x7f, 0x80, 0xff, 0x10, 0x0f]);
            }
            3 if n > 72 => {
                let at = r.below(n - 72);
                let pattern = r.pick(&[
                    f64::NAN,
                    f64::INFINITY,
                    -1.0e6,
                    1.0e6,
                    -1_000_000.1,
                    -0.0,
                    1.0e-300,
                    1000.0,
                    1000.1,
                ]);
                record[at..at + 8].copy_from_slice(&pattern.to_le_bytes());
            }
            7 if n >= 64 => repeat_id(r, record),
            4 if r.once_in(4) => record.truncate(r.below(70)),
            4 => record.truncate(n - r.below(n.min(80) + 1)),
            5 if r.once_in(40) && n < 65536 => {
                // bytes in no section, up to and past the longest record
                let more = r.between(65535, 65537) - n;
                record.splice(0..0, std::iter::repeat(7).take(more));
            }
            _ => {
                let more = r.below(3);
                record.splice(0..0, (0..more).map(|_| r.next() as u8));
            }
        }
    }
}

/// A candidate gets the id of another, where the trailer still leads to two.
fn repeat_id(r: &mut Random, record: &mut [u8]) {
    let end = record.len() - 64;
    let word = |k: usize| {
        u32::from_le_bytes(record[end + 4 * k..end + 4 * k + 4].try_into().unwrap()) as usize
    };
    let (count, back) = (word(13), word(14));
    if (2..=16).contains(&count) && (24 * count..=end).contains(&back) {
        let at = |i: usize| end - back + 24 * i;
        let (from, to) = (at(r.below(count)), at(r.below(count)));
        record.copy_within(from..from + 4, to);
    }
}

/// Lengths of the two work areas and the output: long enough mostly, and on both sides of each limit.
pub fn lengths(r: &mut Random, words: usize) -> (usize, usize, usize) {
    let near = |r: &mut Random, n: usize| {
        if r.once_in(12) {
            (n + r.below(3)).saturating_sub(1)
        } else {
            n + r.below(2)
        }
    };
    (near(r, 1088), near(r, 1088), near(r, words))
}
