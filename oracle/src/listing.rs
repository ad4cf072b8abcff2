//! The listing of document 01's "Sample phrase", from result words. The unclamped sum is not in it.

use crate::entry::{entries, ENTRY_WORDS};

const PASSES: [&str; 6] = [
    "nuclei-strict",
    "count-strict",
    "count-relaxed",
    "nuclei-relaxed",
    "none",
    "unvoiced",
];

pub fn listing(words: &[u32]) -> String {
    let mut text = format!("decoded {}\n", words.len() / ENTRY_WORDS);
    for entry in entries(words) {
        let (llr, pass) = (entry.llr.to_bits(), PASSES[entry.pass as usize]);
        text += &format!(
            "candidate {} {llr:08x} {pass} {}\n",
            entry.id,
            entry.units.len()
        );
        for [start, end, row] in entry.units {
            let row = if row == u32::MAX {
                "-".into()
            } else {
                row.to_string()
            };
            text += &format!("{start} {end} {row}\n");
        }
    }
    text
}
