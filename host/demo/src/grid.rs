//! The rows and cells in which the text and the image show a map, alike in both.

use crate::map::Map;
use std::ops::Range;

/// Cells to a row.
pub const COLUMNS: usize = 50;

/// Cells between two labels of the axis.
pub const LABELLED: usize = 10;

/// Rows of a page at most.
const ROWS: usize = 40;

/// How the blocks of a disc are laid out.
#[derive(Clone, Copy)]
pub struct Grid {
    capacity: usize,
    /// Blocks to a cell: 1, 2, 5, 10, 20 and so on.
    pub cell_blocks: usize,
}

impl Grid {
    /// The layout with the fewest blocks to a cell that fits the page.
    pub fn of(capacity: usize) -> Grid {
        let sizes = (0..).flat_map(|power| [1, 2, 5].map(|digit| digit * 10_usize.pow(power)));
        let fits = |size: &usize| capacity.div_ceil(*size) <= ROWS * COLUMNS;
        Grid { capacity, cell_blocks: sizes.into_iter().find(fits).expect("sizes grow") }
    }

    pub fn row_blocks(&self) -> usize {
        COLUMNS * self.cell_blocks
    }

    pub fn rows(&self) -> usize {
        self.capacity.div_ceil(self.row_blocks())
    }

    /// The blocks of a row.
    pub fn row(&self, row: usize) -> Range<usize> {
        let first = row * self.row_blocks();
        first..self.capacity.min(first + self.row_blocks())
    }

    /// The blocks of each cell of a row.
    pub fn cells(&self, row: usize) -> impl Iterator<Item = Range<usize>> {
        let blocks = self.row(row);
        let size = self.cell_blocks;
        blocks.clone().step_by(size).map(move |first| first..blocks.end.min(first + size))
    }

    /// What a cell is, in words.
    pub fn cell_name(&self) -> String {
        match self.cell_blocks {
            1 => "block of 16 sectors".into(),
            size => format!("{size} blocks of 16 sectors"),
        }
    }
}

/// What begins at a block: a session or a fragment, by its number.
pub type Beginning = (usize, usize);

/// Where the fragments of a map begin.
pub fn fragments(map: &Map) -> Vec<Beginning> {
    let starts = map.state.records().map(|record| record.start as usize);
    starts.enumerate().map(|(index, start)| (start, index + 1)).collect()
}

/// Where its sessions begin.
pub fn sessions(map: &Map) -> Vec<Beginning> {
    let mut found: Vec<Beginning> = Vec::new();
    for record in map.state.records() {
        let session = record.session as usize;
        if found.last().is_none_or(|&(_, last)| last != session) {
            found.push((record.start as usize, session));
        }
    }
    found
}

/// Labels in a row with their places, as F2 or S1. `place` gives that of a block and `width` is a
/// letter's; a label less than a letter after the one before it is joined with that, as F2-4.
pub fn labels(
    letter: char,
    beginnings: &[Beginning],
    row: &Range<usize>,
    place: impl Fn(usize) -> usize,
    width: usize,
) -> Vec<(usize, String)> {
    let mut labels: Vec<(usize, String)> = Vec::new();
    let mut first = 0;
    for &(block, number) in beginnings.iter().filter(|(block, _)| row.contains(block)) {
        let at = place(block);
        match labels.last_mut() {
            Some((before, label)) if at < *before + width * (label.len() + 1) => {
                *label = format!("{letter}{first}-{number}");
            }
            _ => {
                first = number;
                labels.push((at, format!("{letter}{number}")));
            }
        }
    }
    labels
}
