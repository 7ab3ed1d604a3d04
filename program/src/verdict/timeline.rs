//! A recording of any length in at most 480 cells of equally many frames, which grow with it: how
//! each reading stood at the end of every cell. What the drawings and the clocks are made of.

use super::Tributary;

/// The most cells.
pub const MOST: usize = 480;

/// The most gaps whose places are kept.
const MOST_GAPS: usize = 200;

/// One reading at the end of a cell: wrong digits and slips so far, and where its shift was.
#[derive(Clone, Copy, Debug, Default, PartialEq, Eq)]
pub struct Mark {
    pub wrong: u64,
    pub slips: u64,
    pub low: i64,
    pub high: i64,
    pub shift: i64,
}

/// All that is known at the end of a cell, counted from the recording's first frame on.
#[derive(Clone, Copy, Debug, Default, PartialEq, Eq)]
pub struct Cell {
    /// The frames up to its end.
    pub end: u64,
    /// The digits of each tributary, by the decisions of its own frame.
    pub digits: [u64; 4],
    /// The changes of each decision.
    pub changes: [u64; 4],
    /// Of each tributary its three readings.
    pub marks: [[Mark; 3]; 4],
}

impl Cell {
    fn of(end: u64, tributaries: &[Tributary; 4]) -> Cell {
        Cell {
            end,
            digits: tributaries.map(|of| of.readings.first().map_or(0, |own| own.digits)),
            changes: tributaries.map(|of| of.changes),
            marks: tributaries.map(|of| {
                of.readings.map(|read| Mark {
                    wrong: read.wrong,
                    slips: read.slips,
                    low: read.shift,
                    high: read.shift,
                    shift: read.shift,
                })
            }),
        }
    }

    /// This cell and the next as one.
    fn with(&self, next: &Cell) -> Cell {
        let mut both = *next;
        for (both, first) in both.marks.iter_mut().zip(&self.marks) {
            for (both, first) in both.iter_mut().zip(first) {
                both.low = both.low.min(first.low);
                both.high = both.high.max(first.high);
            }
        }
        both
    }
}

/// The cells of a recording.
#[derive(Clone, Debug, PartialEq, Eq)]
pub struct Timeline {
    /// The frames of a cell.
    pub each: u64,
    /// The cells, of which the last may have fewer frames.
    pub cells: Vec<Cell>,
    /// The frames before which there is a gap in the recording.
    pub gaps: Vec<u64>,
}

impl Default for Timeline {
    fn default() -> Timeline {
        Timeline { each: 1, cells: Vec::new(), gaps: Vec::new() }
    }
}

impl Timeline {
    /// The frames so far.
    pub fn frames(&self) -> u64 {
        self.cells.last().map_or(0, |cell| cell.end)
    }

    /// How many frames are missing in the cell that is being filled.
    pub fn wanted(&self) -> u64 {
        self.each - self.frames() % self.each
    }

    /// What is known after so many frames.
    pub fn add(&mut self, frames: u64, tributaries: &[Tributary; 4]) {
        let cell = Cell::of(frames, tributaries);
        let open = self.frames() % self.each != 0;
        match self.cells.last_mut().filter(|_| open) {
            Some(last) => *last = last.with(&cell),
            None => self.cells.push(cell),
        }
        if self.cells.len() >= MOST && self.frames() % self.each == 0 {
            self.halve();
        }
    }

    /// There is a gap after the frames so far.
    pub fn gap(&mut self) {
        if self.gaps.len() < MOST_GAPS && self.frames() > 0 {
            self.gaps.push(self.frames());
        }
    }

    /// Two cells become one.
    fn halve(&mut self) {
        let two = |two: &[Cell]| match two {
            [first, second] => Some(first.with(second)),
            [one] => Some(*one),
            _ => None,
        };
        self.cells = self.cells.chunks(2).filter_map(two).collect();
        self.each *= 2;
    }

    /// The cells, each after the one before it.
    pub fn steps(&self) -> impl Iterator<Item = (Cell, Cell)> + '_ {
        let before = std::iter::once(Cell::default()).chain(self.cells.iter().copied());
        before.zip(self.cells.iter().copied())
    }
}

#[cfg(test)]
mod tests {
    use super::*;

    #[test]
    fn it_never_has_more_cells_than_can_be_drawn_and_forgets_no_frame() {
        let mut line = Timeline::default();
        let mut frames = 0;
        for step in 1..60_000_u64 {
            frames += line.wanted().min(64);
            let mut four = [Tributary::default(); 4];
            four[2].readings[1].shift = (step % 3) as i64 - 1;
            four[2].readings[1].wrong = step;
            line.add(frames, &four);
            assert!(line.cells.len() <= MOST);
        }
        assert_eq!(line.frames(), frames);
        assert!(line.each.is_power_of_two() && line.cells.len() >= MOST / 2);
        let whole = line.cells.iter().take(line.cells.len() - 1).enumerate();
        assert!(whole.into_iter().all(|(k, cell)| cell.end == (k as u64 + 1) * line.each));
        assert!(line.cells.iter().all(|cell| cell.marks[2][1].low == -1));
    }
}
