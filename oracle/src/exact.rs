//! The largest exact sum of all paths that a pass admits for some columns, by a table of whole numbers: exact sums do not hang on the
//! order of additions, so a best path has best parts. And the exact sum of one path a second way.

use crate::phrase::Phrase;
use crate::search::{Path, Step};
use crate::stage::{Stage, Unit};
use crate::whole::Whole;

/// For each boundary the largest exact sum of the steps up to it with so many units, if there is a way.
type Row = Vec<Option<Whole>>;

/// The gap to each boundary where it is larger than the ways in the row so far.
fn with_gaps(stage: &Stage, mut row: Row) -> Row {
    for at in 1..row.len() {
        let gap = row[at - 1].map(|before| before - stage.gap[at - 1].exact);
        row[at] = row[at].max(gap);
    }
    row
}

/// One unit more, with this column.
fn with_unit(stage: &Stage, strict: bool, column: u8, row: &Row) -> Row {
    let into = |at: usize| {
        let units = stage.into[at].iter().filter(|u| u.admitted(strict));
        let ways =
            units.filter_map(|u| row[u.from].map(|before| before + stage.value(u, column).exact));
        ways.max()
    };
    (0..row.len()).map(into).collect()
}

pub fn optimum(stage: &Stage, strict: bool, columns: &[u8]) -> Option<Whole> {
    let starts = stage.start.iter().map(|cost| Some(-cost.exact)).collect();
    let mut row = with_gaps(stage, starts);
    for &column in columns {
        row = with_gaps(stage, with_unit(stage, strict, column, &row));
    }
    let ends = row.iter().zip(&stage.end);
    ends.filter_map(|(sum, cost)| sum.map(|sum| sum - cost.exact))
        .max()
}

/// The exact sum of a path by frames and not by steps: each speech frame and each nucleus that is in none of its units is charged once.
pub fn by_frames(p: &Phrase, stage: &Stage, path: &Path, columns: &[u8]) -> Whole {
    let unit = |step: &Step| match step {
        Step::Unit(unit) => Some(*unit),
        Step::Gap => None,
    };
    let units: Vec<Unit> = path.steps.iter().filter_map(unit).collect();
    let holds = |u: &Unit, f: u32| (stage.bounds[u.from]..stage.bounds[u.to]).contains(&f);
    let outside = |f: &u32| p.within_mask(*f) && !units.iter().any(|u| holds(u, *f));
    let speech = (0..p.mask.len() as u32).filter(outside).count() as u32;
    let nuclei = p.nuclei.iter().copied().filter(outside).count() as u32;
    let filler = Whole::of(p.per_frame).times(speech) - Whole::of(p.insertion_llr).times(nuclei);
    let values = units.iter().zip(columns);
    values.fold(-filler, |sum, (u, &column)| {
        let score = Whole::of(f64::from(stage.score(u, column)));
        sum + score + Whole::of(u.duration)
    })
}

#[cfg(test)]
mod tests {
    use super::*;
    use crate::figure::Figure;
    use crate::hard::hard;
    use crate::maker::sample;
    use crate::random::Random;
    use crate::search::chosen;

    /// Document 01's sample phrase, one unit: -2, then 3 - 0.25 = 2.75, then -3 for six frames: -2.25, and nothing is rounded.
    #[test]
    fn sample_phrase() {
        let p = sample();
        let stage = Stage::nuclei(&p);
        let (path, sum) = chosen(&stage, true, &[0]).unwrap();
        let figure = path.sum(&stage, &[0]);
        assert_eq!((sum, figure.sum), (-2.25, -2.25));
        assert_eq!(figure.exact, Whole::of(-2.25));
        assert_eq!(optimum(&stage, true, &[0]), Some(Whole::of(-2.25)));
        assert_eq!(optimum(&stage, true, &[0, 0]), None);
    }

    /// With 2^-60 a frame, the four frames before the unit and the six behind it vanish beside its 2.75: the f64 sum is 10 * 2^-60 above
    /// the exact one.
    #[test]
    fn small_figures_beside_a_large_one() {
        let mut p = sample();
        p.per_frame = 2f64.powi(-60);
        let stage = Stage::nuclei(&p);
        let (path, sum) = chosen(&stage, true, &[0]).unwrap();
        assert_eq!(sum, 2.75);
        let error = path.sum(&stage, &[0]).error();
        assert_eq!(error, Whole::power(-60).times(10));
    }

    /// A frame costs 1 + 2^-52. Ten of them and the nucleus cost 12 + 10 * 2^-52. In f64, where a place is 2^-49 from 8 up, the product
    /// 10 + 10 * 2^-52 becomes 10 + 8 * 2^-52, and so does the cost.
    #[test]
    fn products_are_exact() {
        let mut p = sample();
        p.per_frame = 1.0 + f64::EPSILON;
        let stage = Stage::nuclei(&p);
        let exact = |x: f64, places: u32| Whole::of(x) + Whole::power(-52).times(places);
        assert_eq!(stage.gap[0].exact, exact(12.0, 10));
        assert_eq!(Whole::of(stage.gap[0].sum), exact(12.0, 8));
        assert_eq!(stage.start[0].exact, exact(4.0, 4));
        assert_eq!(stage.end[1].exact, exact(6.0, 6));
        // without units all frames and the nucleus are charged, whatever the steps
        assert_eq!(optimum(&stage, true, &[]), Some(-exact(22.0, 20)));
    }

    /// The sums of all paths that go on from here, with their numbers of units; each unit has the first column.
    fn walk(
        stage: &Stage,
        at: usize,
        units: usize,
        value: Figure,
        sums: &mut Vec<(usize, Figure)>,
    ) {
        sums.push((units, value.minus(stage.end[at])));
        if at + 1 < stage.bounds.len() {
            walk(stage, at + 1, units, value.minus(stage.gap[at]), sums);
        }
        for unit in &stage.from[at] {
            let value = value.plus(stage.value(unit, 0));
            walk(stage, unit.to, units + 1, value, sums);
        }
    }

    /// On small stages the largest exact sum is that of all paths written out, and the largest f64 sum too.
    #[test]
    fn best_of_all_paths() {
        let mut r = Random(7);
        for _ in 0..2000 {
            let p = hard(&mut r);
            let stage = Stage::nuclei(&p);
            if stage.bounds.len() > 7 {
                continue;
            }
            let mut sums = Vec::new();
            for start in 0..stage.bounds.len() {
                let value = Figure::start(stage.start[start]);
                walk(&stage, start, 0, value, &mut sums);
            }
            for k in 0..5 {
                let with_k = || sums.iter().filter(|s| s.0 == k).map(|s| s.1);
                let columns = vec![0; k];
                let best = with_k().map(|f| f.exact).max();
                assert_eq!(optimum(&stage, false, &columns), best);
                let sum = with_k().map(|f| f.sum).reduce(f64::max);
                assert_eq!(chosen(&stage, false, &columns).map(|c| c.1), sum);
            }
        }
    }

    #[test]
    fn steps_and_frames_agree() {
        let mut r = Random(8);
        let mut found = 0;
        for _ in 0..3000 {
            let p = hard(&mut r);
            for stage in [Some(Stage::nuclei(&p)), Stage::added(&p)].iter().flatten() {
                for (_, columns) in &p.candidates {
                    if let Some((path, _)) = chosen(stage, false, columns) {
                        found += 1;
                        let by_steps = path.sum(stage, columns).exact;
                        assert_eq!(by_steps, by_frames(&p, stage, &path, columns));
                    }
                }
            }
        }
        assert!(found > 1000, "{found} paths");
    }
}
