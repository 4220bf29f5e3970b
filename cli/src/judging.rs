//! Which rows of a plate are whose: the rows that each frame gives, put together as stretches.

use gulxinett::{judge, Refusal, PICTURE_BYTES, PICTURE_ROWS, REGISTERS};
use std::ops::Range;

/// For each frame the rows of a plate that its picture gives.
#[derive(Clone, Debug)]
pub struct Judgement {
    rows: Vec<[bool; PICTURE_ROWS]>,
}

/// Rows one after the other that a frame gives, by its number, or none of them.
#[derive(Clone, Debug, PartialEq, Eq)]
pub struct Stretch {
    pub rows: Range<usize>,
    pub frame: Option<usize>,
}

impl Judgement {
    /// Compares a plate with the picture of each frame under the registers.
    pub fn of<'a>(
        area: &[u8; PICTURE_BYTES],
        frames: impl IntoIterator<Item = &'a [u8]>,
        registers: &[u8; REGISTERS],
    ) -> Result<Judgement, Refusal> {
        let judged = frames
            .into_iter()
            .map(|frame| judge(area, frame, registers));
        Ok(Judgement {
            rows: judged.collect::<Result<_, _>>()?,
        })
    }

    /// Whether a frame gives a row.
    pub fn gives(&self, frame: usize, row: usize) -> bool {
        self.rows[frame][row]
    }

    /// Whether any frame gives a row.
    pub fn is_given(&self, row: usize) -> bool {
        self.rows.iter().any(|rows| rows[row])
    }

    /// How many rows any frame gives.
    pub fn given(&self) -> usize {
        (0..PICTURE_ROWS).filter(|&row| self.is_given(row)).count()
    }

    /// The frames that give every row, in order.
    pub fn whole(&self) -> impl Iterator<Item = usize> + '_ {
        let frames = self.rows.iter().enumerate();
        let whole = frames.filter(|(_, rows)| rows.iter().all(|&row| row));
        whole.map(|(frame, _)| frame)
    }

    /// The stretches from the first row to the last, as few as there can be: each goes on with its frame as long as that
    /// gives the rows, and the next is of the frame that goes on the longest, the first named of several.
    pub fn stretches(&self) -> Vec<Stretch> {
        let mut stretches = Vec::new();
        let mut row = 0;
        while row < PICTURE_ROWS {
            let stretch = self.stretch(row);
            row = stretch.rows.end;
            stretches.push(stretch);
        }
        stretches
    }

    /// The stretch that begins at a row.
    fn stretch(&self, from: usize) -> Stretch {
        let ends = |rows: &[bool; PICTURE_ROWS]| {
            let end = (from..PICTURE_ROWS).find(|&row| !rows[row]);
            end.unwrap_or(PICTURE_ROWS)
        };
        let mut longest = (from, None);
        for (frame, rows) in self.rows.iter().enumerate() {
            if ends(rows) > longest.0 {
                longest = (ends(rows), Some(frame));
            }
        }
        let (end, frame) = match longest {
            (_, None) => {
                let given = (from..PICTURE_ROWS).find(|&row| self.is_given(row));
                (given.unwrap_or(PICTURE_ROWS), None)
            }
            of_a_frame => of_a_frame,
        };
        Stretch {
            rows: from..end,
            frame,
        }
    }

    /// The parts of a stretch that other frames give too, each with the frame.
    pub fn shared(&self, stretch: &Stretch) -> Vec<(usize, Range<usize>)> {
        let mut shared = Vec::new();
        for frame in (0..self.rows.len()).filter(|&frame| Some(frame) != stretch.frame) {
            let mut row = stretch.rows.start;
            while row < stretch.rows.end {
                let begun = row;
                while row < stretch.rows.end && self.gives(frame, row) {
                    row += 1;
                }
                if row > begun {
                    shared.push((frame, begun..row));
                }
                row += 1;
            }
        }
        shared
    }
}

#[cfg(test)]
mod tests {
    use super::*;

    /// A judgement by the rows that each frame gives.
    fn judged(frames: &[&[(usize, usize)]]) -> Judgement {
        let rows = |ranges: &&[(usize, usize)]| {
            std::array::from_fn(|row| ranges.iter().any(|&(from, end)| (from..end).contains(&row)))
        };
        Judgement {
            rows: frames.iter().map(rows).collect(),
        }
    }

    /// Stretches as rows and frames.
    fn stretches(judgement: &Judgement) -> Vec<(usize, usize, Option<usize>)> {
        let plain = |stretch: Stretch| (stretch.rows.start, stretch.rows.end, stretch.frame);
        judgement.stretches().into_iter().map(plain).collect()
    }

    #[test]
    fn one_frame() {
        let judgement = judged(&[&[(0, 5), (9, 112)], &[(0, 112)], &[(0, 112)]]);
        assert_eq!(stretches(&judgement), [(0, 112, Some(1))]);
        assert!(judgement.whole().eq([1, 2]));
        assert_eq!(judgement.given(), 112);
        let shared = judgement.shared(&judgement.stretches()[0]);
        assert_eq!(shared, [(0, 0..5), (0, 9..112), (2, 0..112)]);
    }

    #[test]
    fn two_frames_go_on_as_long_as_they_can() {
        let judgement = judged(&[&[(0, 56)], &[(50, 112)]]);
        let due = [(0, 56, Some(0)), (56, 112, Some(1))];
        assert_eq!(stretches(&judgement), due);
        assert_eq!((judgement.whole().count(), judgement.given()), (0, 112));
        let first = &judgement.stretches()[0];
        assert_eq!(judgement.shared(first), [(1, 50..56)]);
    }

    #[test]
    fn rows_that_none_gives() {
        let judgement = judged(&[&[(3, 4), (111, 112)]]);
        let due = [
            (0, 3, None),
            (3, 4, Some(0)),
            (4, 111, None),
            (111, 112, Some(0)),
        ];
        assert_eq!(stretches(&judgement), due);
        assert_eq!(judgement.given(), 2);
        assert_eq!(stretches(&judged(&[&[]])), [(0, 112, None)]);
    }
}
