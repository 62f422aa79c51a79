//! The map as an image, in the rows of the text: a square for each cell. A block's square is cut into
//! its sixteen sectors where they differ, that of several blocks into their runs. A bar under the
//! squares shows how far a fragment goes.

use crate::fragments::{end, is_reserved};
use crate::grid::{fragments, labels, sessions, Grid, COLUMNS, LABELLED};
use crate::list;
use crate::map::{self, Block, Map, Sector};
use std::fmt::Write;
use std::ops::Range;

/// A cell's square, and the gap to the next one.
const CELL: usize = 16;
const GAP: usize = 2;
const STEP: usize = CELL + GAP;

/// A row: the labels above the squares, the squares, the bars under them.
const LABELS: usize = 24;
const BAR: usize = 3;
const ROW: usize = LABELS + CELL + BAR + 1;

/// Sectors to a row of a square.
const ACROSS: usize = 4;

/// The least width of the pending block, of which a disc has one at most: it is on no medium yet, and
/// must not be lost in a square of many.
const SEEN: f64 = 2.0;

/// In front of a row, and after it, where a label of the last square has room.
const LEFT: usize = 70;
const RIGHT: usize = 50;
const WIDTH: usize = LEFT + COLUMNS * STEP + RIGHT;
const TITLE: usize = 34;
const AXIS: usize = 40;
const LEGEND: usize = 72;

/// Entries of the legend to a row, and their distance.
const ENTRIES: usize = 3;
const ENTRY: usize = 300;

/// A line of text, and a letter's width in the labels, a bold one's.
const LINE: usize = 15;
const LETTER: usize = 7;

const KINDS: [Sector; 9] = [
    Sector::Recorded,
    Sector::ZeroFilled,
    Sector::Pending,
    Sector::Reserved,
    Sector::Blank,
    Sector::Dividing,
    Sector::Closure,
    Sector::Intro,
    Sector::Outside,
];

fn name(sector: Sector) -> &'static str {
    match sector {
        Sector::Recorded => "recorded",
        Sector::ZeroFilled => "zero-filled",
        Sector::Pending => "pending",
        Sector::Reserved => "reserved and unrecorded",
        Sector::Blank => "blank",
        Sector::Dividing => "dividing",
        Sector::Closure => "Closure",
        Sector::Intro => "Intro",
        Sector::Outside => "in no fragment",
    }
}

fn colour(sector: Sector) -> &'static str {
    match sector {
        Sector::Recorded => "#1f5fa8",
        Sector::ZeroFilled => "#8cc6f5",
        Sector::Pending => "#f2a51f",
        Sector::Reserved => "#b5dcb0",
        Sector::Blank => "#e4e4e4",
        Sector::Dividing => "#222222",
        Sector::Closure => "#9c4a86",
        Sector::Intro => "#d3aecb",
        Sector::Outside => "#fbf3dc",
    }
}

/// The image of the discs, one under another.
pub fn image(maps: &[Map]) -> String {
    let height: usize = maps.iter().map(panel_height).sum();
    let mut svg = format!(
        "<svg xmlns=\"http://www.w3.org/2000/svg\" width=\"{WIDTH}\" height=\"{height}\" \
         viewBox=\"0 0 {WIDTH} {height}\" font-family=\"sans-serif\" font-size=\"12\">\n\
         <rect width=\"100%\" height=\"100%\" fill=\"#ffffff\"/>\n"
    );
    let mut top = 0;
    for map in maps {
        panel(&mut svg, top, map);
        top += panel_height(map);
    }
    svg + "</svg>\n"
}

/// The lists under the squares.
fn lists(map: &Map) -> Vec<String> {
    let mut lines = list::fragments(map);
    lines.extend(list::zero_filled(map));
    lines
}

fn grid_height(map: &Map) -> usize {
    Grid::of(map.blocks.len()).rows() * ROW
}

fn heading_height(map: &Map) -> usize {
    TITLE + list::summary(map).len() * LINE + AXIS
}

fn panel_height(map: &Map) -> usize {
    heading_height(map) + grid_height(map) + LEGEND + lists(map).len() * LINE + 24
}

fn panel(svg: &mut String, top: usize, map: &Map) {
    let grid = Grid::of(map.blocks.len());
    let title = format!("{}, afterwards: a square for each {}", map.title, grid.cell_name());
    text(svg, 20, top + 26, "font-size=\"16\"", &title);
    for (place, line) in list::summary(map).iter().enumerate() {
        text(svg, 20, top + TITLE + 12 + place * LINE, "", line);
    }
    let mut y = top + heading_height(map);
    axis(svg, y, &grid);
    for row in 0..grid.rows() {
        row_of_cells(svg, y, map, &grid, row);
        y += ROW;
    }
    legend(svg, y + 10, map);
    y += LEGEND;
    for line in lists(map) {
        y += LINE;
        text(
            svg,
            20,
            y,
            "font-family=\"monospace\" font-size=\"10\" xml:space=\"preserve\"",
            &line,
        );
    }
}

/// What stands in front of the rows and above the columns.
fn axis(svg: &mut String, y: usize, grid: &Grid) {
    text(svg, LEFT - 10, y - 4, "text-anchor=\"end\"", "block");
    let caption =
        "blocks of the row; S: a session begins, F: a fragment begins, as far as its bar \
                   goes (green: reserved)";
    text(svg, LEFT, y - 20, "", caption);
    for column in (0..COLUMNS).step_by(LABELLED) {
        let label = format!("+{}", column * grid.cell_blocks);
        text(svg, LEFT + column * STEP, y - 4, "", &label);
    }
}

/// Where a block begins in its row.
fn place(grid: &Grid, row: &Range<usize>, block: usize) -> usize {
    LEFT + (block - row.start) * STEP / grid.cell_blocks
}

fn row_of_cells(svg: &mut String, y: usize, map: &Map, grid: &Grid, row: usize) {
    let blocks = grid.row(row);
    let at = |block| place(grid, &blocks, block);
    for (x, label) in labels('F', &fragments(map), &blocks, at, LETTER) {
        text(svg, x, y + LABELS - 2, "font-size=\"10\"", &label);
    }
    for (x, label) in labels('S', &sessions(map), &blocks, at, LETTER) {
        text(svg, x, y + LABELS - 12, "font-size=\"10\" font-weight=\"bold\"", &label);
    }
    let squares = y + LABELS;
    text(svg, LEFT - 10, squares + 12, "text-anchor=\"end\"", &blocks.start.to_string());
    for (column, cell) in grid.cells(row).enumerate() {
        let x = LEFT + column * STEP;
        let titled = title(map, &cell);
        add(svg, format_args!("<g><title>{titled}</title>"));
        match &map.blocks[cell] {
            [block] => block_square(svg, x, squares, block),
            several => runs_square(svg, x, squares, several, grid.cell_blocks),
        }
        add(svg, format_args!("</g>\n"));
    }
    bars(svg, squares + CELL + 2, map, grid, &blocks);
}

/// A cell's blocks and what they are, for those who point at it.
fn title(map: &Map, cell: &Range<usize>) -> String {
    let found = &map.blocks[cell.clone()];
    let parts: Vec<String> = KINDS
        .into_iter()
        .map(|kind| (kind, found.iter().flatten().filter(|&&sector| sector == kind).count()))
        .filter(|&(_, count)| count > 0)
        .map(|(kind, count)| format!("{} {}", list::count(count, "sector"), name(kind)))
        .collect();
    let blocks = match cell.len() {
        1 => format!("block {}", cell.start),
        _ => format!("blocks {}-{}", cell.start, cell.end - 1),
    };
    format!("{blocks}: {}", parts.join(", "))
}

/// A block, cut into its sectors where they differ.
fn block_square(svg: &mut String, x: usize, y: usize, block: &Block) {
    if block.iter().all(|sector| *sector == block[0]) {
        return rectangle(svg, x as f64, y, CELL as f64, CELL, colour(block[0]));
    }
    let size = CELL / ACROSS;
    for (place, sector) in block.iter().enumerate() {
        let across = (x + place % ACROSS * size) as f64;
        rectangle(svg, across, y + place / ACROSS * size, size as f64, size, colour(*sector));
    }
}

/// Several blocks, as the runs of equal ones from left to right.
fn runs_square(svg: &mut String, x: usize, y: usize, blocks: &[Block], cell_blocks: usize) {
    let width = CELL as f64 / cell_blocks as f64;
    let mut at = x as f64;
    let mut pending = None;
    for run in blocks.chunk_by(|one, next| map::character(one) == map::character(next)) {
        let run_width = width * run.len() as f64;
        let (first, last) = (run[0][0], run[0][run[0].len() - 1]);
        rectangle(svg, at, y, run_width, CELL, colour(first));
        if last != first {
            // blocks in part zero-filled or pending: the lower half is the rest
            rectangle(svg, at, y + CELL / 2, run_width, CELL / 2, colour(last));
        }
        if first == Sector::Pending {
            pending = Some(at);
        }
        at += run_width;
    }
    if let Some(at) = pending.filter(|_| width < SEEN) {
        let left = at.min((x + CELL) as f64 - SEEN);
        rectangle(svg, left, y, SEEN, CELL, colour(Sector::Pending));
    }
}

/// The bars of the fragments in a row, with a foot where one begins or ends.
fn bars(svg: &mut String, y: usize, map: &Map, grid: &Grid, row: &Range<usize>) {
    for record in map.state.records() {
        let from = row.start.max(record.start as usize);
        let to = row.end.min(end(&record) as usize);
        if from >= to {
            continue;
        }
        let fill = if is_reserved(&record) { "#2e7d32" } else { "#666666" };
        let unit = STEP as f64 / grid.cell_blocks as f64;
        let left = LEFT as f64 + (from - row.start) as f64 * unit;
        let right = LEFT as f64 + (to - row.start) as f64 * unit - GAP as f64;
        let width = (right - left).max(1.0);
        rectangle(svg, left, y, width, BAR - 1, fill);
        if from == record.start as usize {
            rectangle(svg, left, y - 2, 2.0_f64.min(width), BAR + 2, fill);
        }
        if to == end(&record) as usize {
            rectangle(svg, left + (width - 2.0).max(0.0), y - 2, 2.0_f64.min(width), BAR + 2, fill);
        }
        add(svg, format_args!("\n"));
    }
}

/// The kinds with their colours and the numbers of sectors.
fn legend(svg: &mut String, y: usize, map: &Map) {
    let present: Vec<(Sector, usize)> = KINDS
        .into_iter()
        .map(|kind| (kind, map.sectors(kind)))
        .filter(|&(_, count)| count > 0)
        .collect();
    for (place, (kind, count)) in present.into_iter().enumerate() {
        let (x, y) = (LEFT + place % ENTRIES * ENTRY, y + place / ENTRIES * 20);
        rectangle(svg, x as f64, y, 14.0, 14, colour(kind));
        let entry = format!("{} ({})", name(kind), list::count(count, "sector"));
        text(svg, x + 20, y + 12, "", &entry);
    }
}

fn rectangle(svg: &mut String, x: f64, y: usize, width: f64, height: usize, fill: &str) {
    add(
        svg,
        format_args!(
            "<rect x=\"{}\" y=\"{y}\" width=\"{}\" height=\"{height}\" fill=\"{fill}\"/>",
            rounded(x),
            rounded(width)
        ),
    );
}

/// Two digits after the point are enough for an image.
fn rounded(length: f64) -> f64 {
    (length * 100.0).round() / 100.0
}

fn text(svg: &mut String, x: usize, y: usize, attributes: &str, content: &str) {
    let content = content.replace('&', "&amp;").replace('<', "&lt;");
    add(svg, format_args!("<text x=\"{x}\" y=\"{y}\" {attributes}>{content}</text>\n"));
}

fn add(svg: &mut String, piece: std::fmt::Arguments) {
    svg.write_fmt(piece).expect("a string takes everything");
}
