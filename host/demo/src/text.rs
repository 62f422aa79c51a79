//! The map as text: a character for each cell, and the lists.

use crate::grid::{fragments, labels, sessions, Grid, COLUMNS, LABELLED};
use crate::list;
use crate::map::{character, Map, CHARACTERS};
use std::io::{self, Write};

/// Where different blocks share a cell.
const DIFFERENT: char = '*';

/// Width of the number in front of a row, with the gap.
const LEFT: usize = 9;

/// Prints the map.
pub fn print(out: &mut impl Write, map: &Map) -> io::Result<()> {
    let grid = Grid::of(map.blocks.len());
    writeln!(out, "\n{}, afterwards: a character for each {}", map.title, grid.cell_name())?;
    let indent = " ".repeat(LEFT);
    for line in list::summary(map) {
        writeln!(out, "{line}")?;
    }
    writeln!(out)?;
    for line in rows(map) {
        writeln!(out, "{line}")?;
    }
    writeln!(out)?;
    for line in legend(map).chunks(4) {
        writeln!(out, "{indent}{}", line.join("   "))?;
    }
    writeln!(out)?;
    for line in list::fragments(map).iter().chain(&list::zero_filled(map)) {
        writeln!(out, "{line}")?;
    }
    Ok(())
}

/// The axis, and each row: where fragments begin, the first block's number, a character for each
/// cell.
pub fn rows(map: &Map) -> Vec<String> {
    let grid = Grid::of(map.blocks.len());
    let mut lines = axis(&grid);
    for row in 0..grid.rows() {
        let blocks = grid.row(row);
        let place = |block: usize| LEFT + (block - blocks.start) / grid.cell_blocks;
        for (letter, beginnings) in [('S', sessions(map)), ('F', fragments(map))] {
            let marks = labels(letter, &beginnings, &blocks, place, 1);
            if !marks.is_empty() {
                lines.push(placed(&marks));
            }
        }
        let cells: String = grid.cells(row).map(|cell| cell_character(map, cell)).collect();
        lines.push(format!("{:>7}  {cells}", blocks.start));
    }
    lines
}

fn axis(grid: &Grid) -> Vec<String> {
    let labels: Vec<(usize, String)> = (0..COLUMNS)
        .step_by(LABELLED)
        .map(|column| (LEFT + column, format!("+{}", column * grid.cell_blocks)))
        .collect();
    let caption = "  block  blocks of the row; S: a session begins, F: a fragment begins";
    vec![caption.into(), placed(&labels)]
}

/// Texts at their columns.
fn placed(labels: &[(usize, String)]) -> String {
    labels.iter().fold(String::new(), |line, (at, label)| format!("{line:<at$}{label}"))
}

/// A cell's character: its blocks', if that is the same.
fn cell_character(map: &Map, cell: std::ops::Range<usize>) -> char {
    let mut found = map.blocks[cell].iter().map(character);
    let first = found.next().expect("a cell has a block");
    if found.all(|other| other == first) {
        first
    } else {
        DIFFERENT
    }
}

/// What the characters mean, with how many blocks there are of each.
fn legend(map: &Map) -> Vec<String> {
    let mut lines: Vec<String> = CHARACTERS
        .iter()
        .map(|&(sign, meaning)| {
            let count = map.blocks.iter().filter(|block| character(block) == sign).count();
            (count, format!("{sign} {meaning} ({count})"))
        })
        .filter(|&(count, _)| count > 0)
        .map(|(_, text)| text)
        .collect();
    if rows(map).iter().any(|row| row.contains(DIFFERENT)) {
        lines.push(format!("{DIFFERENT} different blocks"));
    }
    lines
}
