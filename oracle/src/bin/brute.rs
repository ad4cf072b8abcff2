//! brute COUNT SEED: the original, and our decoder through the C interface, against demand 3 on that many tiny phrases, with every
//! admitted path written out: of each candidate the pass, the unclamped sum, and the llr that follows from it. Prints how many candidates
//! were compared and how many differ on either side; the exit status is 0 only for none.

use oracle::arguments::count_and_seed;
use oracle::brute;
use oracle::entry::{entries, ENTRY_WORDS};
use oracle::generate::{phrase, Kind};
use oracle::maker::encode;
use oracle::ours::{Desk, WORK_CELLS};
use oracle::phrase::Phrase;
use oracle::reference::{decode, Given};
use std::process::exit;

/// Our words; none where the record is refused or memory is not as it should be, so that each candidate differs.
fn ours(desk: &mut Desk, p: &Phrase) -> Vec<u32> {
    let out = p.candidates.len() * ENTRY_WORDS;
    let decoded = desk.decode(&encode(p), WORK_CELLS, WORK_CELLS, out);
    decoded.unwrap_or(Err(0)).unwrap_or_default()
}

fn main() {
    let (count, mut r) = count_and_seed("brute");
    let mut desk = Desk::default();
    let (mut compared, mut missed, mut differ) = (0, 0, 0);
    for _ in 0..count {
        let p = phrase(&mut r, Kind::Tiny);
        let original = decode(&p, Given::WithinMask);
        let sides = [("the original", original), ("ours", ours(&mut desk, &p))];
        for (id, columns) in &p.candidates {
            let wanted = brute::answer(&p, columns);
            compared += 1;
            missed += usize::from(!wanted.path);
            for (side, words) in &sides {
                let entry = entries(words).find(|e| e.id == *id);
                if !entry.as_ref().is_some_and(|e| wanted.met_by(e)) {
                    differ += 1;
                    println!("{p:?} {columns:?}: {wanted:?}, {side} {entry:?}");
                }
            }
        }
    }
    println!("{compared} candidates compared, {missed} of them without a path, {differ} differ");
    exit(i32::from(differ != 0));
}
