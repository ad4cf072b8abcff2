//! The search by document 01's cell rule, in f64, with the path that it keeps: its start and every step.

use crate::figure::Figure;
use crate::phrase::Phrase;
use crate::stage::{Stage, Unit};

#[derive(Clone, Copy, Debug, PartialEq)]
pub enum Step {
    Gap,
    Unit(Unit),
}

#[derive(Clone, Debug, PartialEq)]
pub struct Path {
    pub start: usize,
    pub steps: Vec<Step>,
}

impl Path {
    /// The sum, left to right; its units take these columns in order.
    pub fn sum(&self, stage: &Stage, columns: &[u8]) -> Figure {
        let mut at = self.start;
        let mut columns = columns.iter();
        let mut sum = Figure::start(stage.start[at]);
        for step in &self.steps {
            (sum, at) = match step {
                Step::Gap => (sum.minus(stage.gap[at]), at + 1),
                Step::Unit(unit) => {
                    let column = *columns.next().expect("a column for each unit");
                    (sum.plus(stage.value(unit, column)), unit.to)
                }
            };
        }
        sum.minus(stage.end[at])
    }
}

/// How a cell is come into.
#[derive(Clone, Copy)]
enum Way {
    Start,
    Gap,
    Unit(Unit),
}

type Cell = Option<(f64, Way)>;

/// Cells by units so far, then boundary.
struct Table<'a> {
    stage: &'a Stage<'a>,
    strict: bool,
    columns: &'a [u8],
    cells: Vec<Vec<Cell>>,
}

impl Table<'_> {
    fn fill(&mut self) {
        for units in 0..=self.columns.len() {
            self.cells.push(Vec::new());
            for at in 0..self.stage.bounds.len() {
                let cell = self.cell(units, at);
                self.cells[units].push(cell);
            }
        }
    }

    /// Start first, then units from the lowest origin up, then the gap; a later way replaces only when strictly greater.
    fn cell(&self, units: usize, at: usize) -> Cell {
        let mut kept: Cell = None;
        let mut offer = |value: f64, way: Way| {
            if kept.is_none_or(|(least, _)| value > least) {
                kept = Some((value, way));
            }
        };
        if units == 0 {
            offer(-self.stage.start[at].sum, Way::Start);
        } else {
            let column = self.columns[units - 1];
            for unit in self.stage.into[at]
                .iter()
                .filter(|u| u.admitted(self.strict))
            {
                if let Some((before, _)) = self.cells[units - 1][unit.from] {
                    let score = f64::from(self.stage.score(unit, column));
                    let value = score + unit.duration;
                    offer(before + value, Way::Unit(*unit));
                }
            }
        }
        if at > 0 {
            if let Some((before, _)) = self.cells[units][at - 1] {
                offer(before - self.stage.gap[at - 1].sum, Way::Gap);
            }
        }
        kept
    }

    /// Of equal ends the lowest boundary wins.
    fn end(&self) -> Option<(usize, f64)> {
        let mut kept: Option<(usize, f64)> = None;
        for (at, cell) in self.cells[self.columns.len()].iter().enumerate() {
            if let Some((value, _)) = cell {
                let sum = value - self.stage.end[at].sum;
                if kept.is_none_or(|(_, greatest)| sum > greatest) {
                    kept = Some((at, sum));
                }
            }
        }
        kept
    }

    /// The steps into a cell that has a way.
    fn back(&self, mut at: usize) -> Path {
        let mut units = self.columns.len();
        let mut steps = Vec::new();
        while let Some((_, way)) = self.cells[units][at] {
            match way {
                Way::Start => break,
                Way::Gap => {
                    steps.push(Step::Gap);
                    at -= 1;
                }
                Way::Unit(unit) => {
                    steps.push(Step::Unit(unit));
                    (units, at) = (units - 1, unit.from);
                }
            }
        }
        steps.reverse();
        Path { start: at, steps }
    }
}

/// The path that a pass over this stage chooses for these columns, and its sum in f64.
pub fn chosen(stage: &Stage, strict: bool, columns: &[u8]) -> Option<(Path, f64)> {
    let cells = Vec::new();
    let mut table = Table {
        stage,
        strict,
        columns,
        cells,
    };
    table.fill();
    table.end().map(|(at, sum)| (table.back(at), sum))
}

/// The passes over a phrase in their order: number, stage, whether strict.
pub fn passes<'s, 'a>(
    p: &Phrase,
    nuclei: &'s Stage<'a>,
    added: Option<&'s Stage<'a>>,
) -> Vec<(u32, &'s Stage<'a>, bool)> {
    if p.speech.is_none() || no_nucleus(p) {
        return Vec::new();
    }
    match added {
        Some(added) => vec![(0, nuclei, true), (1, added, true), (2, added, false)],
        None => vec![(0, nuclei, true), (3, nuclei, false)],
    }
}

/// Whether no nucleus is within the mask, which decides between "unvoiced" and "none".
pub fn no_nucleus(p: &Phrase) -> bool {
    !p.nuclei.iter().any(|&f| p.within_mask(f))
}
