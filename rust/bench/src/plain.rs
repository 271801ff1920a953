//! The search as a Rust programmer would write it who proves nothing: same answer, same buffers.

use crate::input::Input;
use colourway::{Buffers, Refusal, SearchRefusal, Totals};

/// What stands in a map where a symbol has no image or no preimage.
const NONE: u16 = 256;

/// A cell of the pattern, by row and column.
pub type Cell = (u8, u8);

/// For each symbol the pattern's first cell in which it stands, if it stands there at all.
pub type FirstCells = [Option<Cell>; 256];

/// Two cells that spoil a window: alike in the pattern only (kind 3) or in the window only (kind 4).
#[derive(Clone, Copy)]
pub struct Mismatch {
    kind: u8,
    earlier: Cell,
    pub later: Cell,
}

/// The search of document 01, refusals included.
pub fn search(input: &Input, buffers: Buffers) -> Result<Totals, SearchRefusal> {
    if let Some(why) = refusal(input, &buffers) {
        return Err(SearchRefusal::Refused(why));
    }
    let windows = input.windows();
    counts(input, buffers.counts);
    buffers.links[..input.rows * input.width].fill(0);
    let first = first_cells(input);
    let mismatches = mismatches(input, &first);
    let mut found = 0;
    for (flag, mismatch) in buffers.flags.iter_mut().zip(&mismatches) {
        *flag = u8::from(mismatch.is_none());
        found += usize::from(*flag);
    }
    let symbols = symbols(&first);
    let length = found * (3 + 3 * symbols.len()) + (windows - found) * 7 + 5;
    if buffers.listing.len() < length {
        return Err(SearchRefusal::ListingBufferShort { needed: length });
    }
    write(
        input,
        &mismatches,
        &symbols,
        found,
        &mut buffers.listing[..length],
    );
    Ok(Totals {
        found,
        refused: windows - found,
        length,
    })
}

/// By what the search is refused before it begins.
fn refusal(input: &Input, buffers: &Buffers) -> Option<Refusal> {
    let &Input {
        ref text,
        rows,
        columns,
        ref pattern,
        height,
        width,
    } = input;
    let sides = [rows, columns, height, width];
    if sides.iter().any(|side| !(1..=255).contains(side)) {
        return Some(Refusal::SideRange);
    }
    if text.len() != rows * columns || pattern.len() != height * width {
        return Some(Refusal::CellCount);
    }
    if height > rows || width > columns {
        return Some(Refusal::TooLarge);
    }
    if buffers.links.len() < rows * width {
        return Some(Refusal::LinksBufferShort);
    }
    let windows = input.windows();
    if buffers.flags.len() < windows || buffers.counts.len() < windows {
        return Some(Refusal::WindowBufferShort);
    }
    None
}

/// The number of different symbols in each window, by a table of occurrences that slides down each strip.
pub fn counts(input: &Input, counts: &mut [u16]) {
    let across = input.across();
    let strip_row = |row: usize, left: usize| {
        let first = row * input.columns + left;
        &input.text[first..first + input.width]
    };
    for left in 0..across {
        let mut occurrences = [0u32; 256];
        let mut distinct = 0;
        for row in 0..input.rows {
            for &symbol in strip_row(row, left) {
                let n = &mut occurrences[usize::from(symbol)];
                distinct += u16::from(*n == 0);
                *n += 1;
            }
            if row + 1 < input.height {
                continue;
            }
            let top = row + 1 - input.height;
            counts[top * across + left] = distinct;
            for &symbol in strip_row(top, left) {
                let n = &mut occurrences[usize::from(symbol)];
                *n -= 1;
                distinct -= u16::from(*n == 0);
            }
        }
    }
}

/// Compares every window, row by row: its mismatch, or none where the pattern matches.
pub fn mismatches(input: &Input, first: &FirstCells) -> Vec<Option<Mismatch>> {
    let mut maps = Maps::empty();
    let mut mismatches = Vec::with_capacity(input.windows());
    for row in 0..input.down() {
        for column in 0..input.across() {
            let end = maps.compare(input, row, column);
            mismatches.push(end.map(|later| {
                let (i, j) = (usize::from(later.0), usize::from(later.1));
                let a = input.pattern[i * input.width + j];
                let c = input.text[(row + i) * input.columns + column + j];
                let (kind, earlier) = maps.earlier(first, a, c);
                Mismatch {
                    kind,
                    earlier,
                    later,
                }
            }));
            maps.clear();
        }
    }
    mismatches
}

/// The first cell of the pattern in which each symbol stands.
pub fn first_cells(input: &Input) -> FirstCells {
    let mut first = [None; 256];
    for (i, row) in input.pattern.chunks_exact(input.width).enumerate() {
        for (j, &a) in row.iter().enumerate() {
            first[usize::from(a)].get_or_insert((i as u8, j as u8));
        }
    }
    first
}

/// The pattern's symbols, rising, each with the first cell in which it stands.
fn symbols(first: &FirstCells) -> Vec<(u8, Cell)> {
    let standing = |(a, first): (u8, &Option<Cell>)| first.map(|cell| (a, cell));
    (0..=255).zip(first).filter_map(standing).collect()
}

/// Writes a listing that has just this length: each window's records in order, then the closing.
fn write(
    input: &Input,
    mismatches: &[Option<Mismatch>],
    symbols: &[(u8, Cell)],
    found: usize,
    mut listing: &mut [u8],
) {
    let across = input.across();
    for (window, mismatch) in mismatches.iter().enumerate() {
        let (row, column) = (window / across, window % across);
        match *mismatch {
            None => {
                put(&mut listing, [1, row as u8, column as u8]);
                for &(a, (i, j)) in symbols {
                    let (i, j) = (usize::from(i), usize::from(j));
                    let image = input.text[(row + i) * input.columns + column + j];
                    put(&mut listing, [2, a, image]);
                }
            }
            Some(Mismatch {
                kind,
                earlier,
                later,
            }) => {
                let ((x, y), (i, j)) = (earlier, later);
                put(&mut listing, [kind, row as u8, column as u8, x, y, i, j]);
            }
        }
    }
    let [a, b] = (found as u16).to_be_bytes();
    let [c, d] = ((mismatches.len() - found) as u16).to_be_bytes();
    put(&mut listing, [5, a, b, c, d]);
}

/// Puts a record to the front of what is left of the listing.
fn put<const N: usize>(listing: &mut &mut [u8], record: [u8; N]) {
    let (front, rest) = std::mem::take(listing).split_at_mut(N);
    front.copy_from_slice(&record);
    *listing = rest;
}

/// The images and the preimages of symbols, with the pairs that stand in them.
struct Maps {
    forward: [u16; 256],
    backward: [u16; 256],
    pairs: Vec<(u8, u8)>,
}

impl Maps {
    fn empty() -> Maps {
        Maps {
            forward: [NONE; 256],
            backward: [NONE; 256],
            pairs: Vec::with_capacity(256),
        }
    }

    /// Takes out just the pairs that stand there.
    fn clear(&mut self) {
        for (a, c) in self.pairs.drain(..) {
            self.forward[usize::from(a)] = NONE;
            self.backward[usize::from(c)] = NONE;
        }
    }

    /// Fills empty maps cell by cell. The first cell of the pattern at which the window does not follow them.
    fn compare(&mut self, input: &Input, row: usize, column: usize) -> Option<Cell> {
        let window_rows = input.text[row * input.columns..].chunks(input.columns);
        let pattern_rows = input.pattern.chunks_exact(input.width);
        for (i, (pattern_row, window_row)) in pattern_rows.zip(window_rows).enumerate() {
            let window_row = &window_row[column..column + input.width];
            for (j, (&a, &c)) in pattern_row.iter().zip(window_row).enumerate() {
                let image = self.forward[usize::from(a)];
                if image == u16::from(c) {
                    continue;
                }
                if image != NONE || self.backward[usize::from(c)] != NONE {
                    return Some((i as u8, j as u8));
                }
                self.forward[usize::from(a)] = u16::from(c);
                self.backward[usize::from(c)] = u16::from(a);
                self.pairs.push((a, c));
            }
        }
        None
    }

    /// The kind and the first cell of the mismatch that ends at a cell with this pattern symbol and this window symbol.
    /// It is with the first cell of the one, which has another symbol in the window, or with that of the other, which
    /// has another in the pattern: up to there the window follows the maps, so that its symbol stands first where the
    /// preimage does. Not inlined, to leave the comparison's loop to itself. How fast that loop is still depends on
    /// where the compiler puts it: 0.5 and 0.8 nanoseconds a cell were measured of the same lines in two builds.
    #[inline(never)]
    fn earlier(&self, first: &FirstCells, a: u8, c: u8) -> (u8, Cell) {
        let image = self.forward[usize::from(a)];
        let preimage = self.backward[usize::from(c)];
        let in_pattern = first[usize::from(a)].filter(|_| image != NONE);
        let in_window = first.get(usize::from(preimage)).copied().flatten();
        match (in_pattern, in_window) {
            (Some(x), Some(y)) => {
                if x < y {
                    (3, x)
                } else {
                    (4, y)
                }
            }
            (Some(x), None) => (3, x),
            (None, Some(y)) => (4, y),
            (None, None) => unreachable!("a mismatch ends at this cell"),
        }
    }
}
