//! Document 02's Ask 4, as a check of one record after another: no f64 sum of a path is further than 2^-21 from its exact sum, and no
//! path that the pass admits for the candidate's unit count is better than the returned one by more than 2^-20, exactly. All of it in
//! whole numbers.

use crate::entry::{entries, Entry};
use crate::exact::{by_frames, optimum};
use crate::figure::Figure;
use crate::phrase::Phrase;
use crate::random::Random;
use crate::search::{chosen, no_nucleus, passes, Path, Step};
use crate::stage::Stage;
use crate::walks;
use crate::whole::Whole;
use std::fmt::{self, Display};

/// The first figure of Ask 4, and the second.
pub const FAR: i32 = -21;
pub const BETTER: i32 = -20;

/// The most boundaries of a stage whose paths are all written out: 609 at most.
const FEW: usize = 7;

/// What was checked, and how near it came.
#[derive(Default)]
pub struct Distances {
    accepted: usize,
    returned_paths: usize,
    paths: usize,
    pub returned: Whole,
    other: Whole,
    pub advantage: Whole,
}

/// What the entry of a candidate has to hold: pass, bits of the sum, the row of each unit.
type Answer = (u32, u64, Vec<u32>);

/// The row of a unit without an anchor.
const NO_ROW: u32 = u32::MAX;

/// How many paths of any number of units are looked at in a record.
#[derive(Clone, Copy)]
pub struct Effort {
    pub drawn: usize,
    pub furthest: bool,
}

/// The distance of a path's f64 sum, or why it is wrong.
pub fn distance(path: Figure) -> Result<Whole, String> {
    let distance = path.error().abs();
    if distance > Whole::power(FAR) {
        return Err(format!(
            "the sum {} is {distance} from its exact sum",
            path.sum
        ));
    }
    Ok(distance)
}

/// By how much the best exact sum is above that of the returned path, or why it is wrong.
pub fn advantage(optimum: Whole, returned: Whole) -> Result<Whole, String> {
    let advantage = optimum - returned;
    if advantage.is_negative() {
        return Err(format!("the path is {advantage} better than the best"));
    }
    if advantage > Whole::power(BETTER) {
        return Err(format!("another path is better by {advantage}"));
    }
    Ok(advantage)
}

/// The rows of a path's units, in order.
fn rows(path: &Path) -> Vec<u32> {
    let row = |step: &Step| match step {
        Step::Unit(unit) => Some(unit.row.map_or(NO_ROW, |row| row as u32)),
        Step::Gap => None,
    };
    path.steps.iter().filter_map(row).collect()
}

/// What an entry holds.
fn held(e: &Entry) -> Answer {
    let rows = e.units.iter().map(|unit| unit[2]);
    (e.pass, e.sum.to_bits(), rows.collect())
}

impl Distances {
    /// An accepted record with the words that it was answered with.
    pub fn record(
        &mut self,
        p: &Phrase,
        words: &[u32],
        r: &mut Random,
        effort: Effort,
    ) -> Result<(), String> {
        self.accepted += 1;
        let (nuclei, added) = (Stage::nuclei(p), Stage::added(p));
        for (id, columns) in &p.candidates {
            let answer = self.candidate(p, (&nuclei, added.as_ref()), columns)?;
            let got = entries(words).find(|e| e.id == *id).map(|e| held(&e));
            if got.as_ref() != Some(&answer) {
                return Err(format!(
                    "candidate {id}: pass, sum and rows {answer:x?}, ours {got:x?}"
                ));
            }
        }
        for stage in [Some(&nuclei), added.as_ref()].into_iter().flatten() {
            for strict in [true, false] {
                self.any_paths(stage, strict, r, effort)?;
            }
        }
        Ok(())
    }

    /// What its entry has to hold. The path is held to both bounds.
    fn candidate(
        &mut self,
        p: &Phrase,
        (nuclei, added): (&Stage, Option<&Stage>),
        columns: &[u8],
    ) -> Result<Answer, String> {
        for (pass, stage, strict) in passes(p, nuclei, added) {
            if let Some((path, sum)) = chosen(stage, strict, columns) {
                let figure = path.sum(stage, columns);
                if figure.sum.to_bits() != sum.to_bits() {
                    return Err(format!("{path:?} has the sum {}, not {sum}", figure.sum));
                }
                if figure.exact != by_frames(p, stage, &path, columns) {
                    return Err(format!("{path:?} has another exact sum by frames"));
                }
                let best = optimum(stage, strict, columns).ok_or("no exact path")?;
                self.returned = self.returned.max(distance(figure)?);
                self.advantage = self.advantage.max(advantage(best, figure.exact)?);
                self.returned_paths += 1;
                return Ok((pass, sum.to_bits(), rows(&path)));
            }
        }
        let pass = if no_nucleus(p) { 5 } else { 4 };
        let product = p.unvoiced_sum(columns.len());
        Ok((pass, product.to_bits(), vec![NO_ROW; columns.len()]))
    }

    /// Paths of any number of units, whether or not decoding runs the pass.
    fn any_paths(
        &mut self,
        stage: &Stage,
        strict: bool,
        r: &mut Random,
        effort: Effort,
    ) -> Result<(), String> {
        let mut paths = if stage.bounds.len() <= FEW {
            walks::all(stage, strict, r)
        } else {
            let drawn = (0..effort.drawn).filter_map(|_| walks::drawn(stage, strict, r));
            drawn.collect()
        };
        if effort.furthest {
            for above in [true, false] {
                paths.extend(walks::furthest(stage, strict, r, above));
            }
        }
        self.paths += paths.len();
        for path in paths {
            self.other = self.other.max(distance(path)?);
        }
        Ok(())
    }

    /// The largest distance of a path, returned or not.
    pub fn any(&self) -> Whole {
        self.other.max(self.returned)
    }
}

impl Display for Distances {
    fn fmt(&self, f: &mut fmt::Formatter) -> fmt::Result {
        write!(
            f,
            "{} accepted, {} returned paths and {} others checked; largest distance of a returned path {}, of any path {}; \
             largest exact advantage of another path over the returned one {}",
            self.accepted,
            self.returned_paths,
            self.paths,
            self.returned,
            self.any(),
            self.advantage
        )
    }
}

/// That the checks can fail: a sum that is moved by 2^-20, and a path that is passed over for one worse by 2^-19, are reported, and what
/// the bounds allow just so is not.
pub fn self_test() -> Result<(), String> {
    let at = |error: Whole| Figure {
        sum: 1000.0,
        exact: Whole::of(1000.0) - error,
    };
    let least = Whole::of(5e-324);
    let far = Whole::power(FAR);
    let better = Whole::power(BETTER);
    let moved = Figure {
        sum: 1000.0 + 2f64.powi(-20),
        exact: Whole::of(1000.0),
    };
    let right = distance(at(far)) == Ok(far)
        && distance(at(-far)) == Ok(far)
        && distance(at(far + least)).is_err()
        && distance(at(-far - least)).is_err()
        && distance(moved).is_err()
        && advantage(better, Whole::ZERO) == Ok(better)
        && advantage(better + least, Whole::ZERO).is_err()
        && advantage(Whole::power(-19), Whole::ZERO).is_err()
        && advantage(Whole::ZERO, least).is_err();
    if right {
        Ok(())
    } else {
        Err("the bounds are not checked as they should be".into())
    }
}

#[cfg(test)]
mod tests {
    use super::*;
    use crate::entry::ENTRY_WORDS;
    use crate::maker::{encode, sample};
    use crate::ours::{Desk, WORK_CELLS};

    const EFFORT: Effort = Effort {
        drawn: 10,
        furthest: true,
    };

    #[test]
    fn bounds_are_reported() {
        self_test().unwrap();
    }

    /// The sample phrase's own words pass; with an id, a pass, a unit count, a half of a sum or a row changed they do not.
    #[test]
    fn changed_words_are_reported() {
        let p = sample();
        let out = 2 * ENTRY_WORDS;
        let words = Desk::default().decode(&encode(&p), WORK_CELLS, WORK_CELLS, out);
        let words = words.unwrap().unwrap();
        let judge = |words: &[u32]| Distances::default().record(&p, words, &mut Random(1), EFFORT);
        assert_eq!(judge(&words), Ok(()));
        for word in [
            0,
            2,
            3,
            4,
            5,
            8,
            ENTRY_WORDS + 2,
            ENTRY_WORDS + 4,
            ENTRY_WORDS + 5,
        ] {
            let mut changed = words.clone();
            changed[word] ^= 1;
            assert!(judge(&changed).is_err(), "word {word}");
        }
    }
}
