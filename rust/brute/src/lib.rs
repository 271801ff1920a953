//! Document 01's operations by brute force.
//!
//! This is written from document 01's sentences, and document 02's where a request has landed, and shares no code with
//! what it is compared with. It is meant to be seen right at a glance, however slow it is. An operation on a buffer
//! takes the buffer as it was, and answers the number of the refusal (0 where the input is accepted) with the whole
//! buffer as it is afterwards.

mod bijections;
mod check;
mod compare;
mod count_list;
mod listing;
mod program;
mod scales;
mod search;

pub use bijections::{compose, invert, pair, Columns};
pub use check::check;
pub use compare::one_window;
pub use count_list::{count, list};
pub use listing::read;
pub use program::program;
pub use scales::{search_scaled, search_scales};
pub use search::{search, Buffers};

use std::collections::BTreeSet;

/// The number of the first condition that holds, or 0: "each is given when its condition holds and no earlier one
/// does".
fn first_refusal(conditions: &[(u8, bool)]) -> u8 {
    conditions
        .iter()
        .find(|(_, holds)| *holds)
        .map_or(0, |(number, _)| *number)
}

/// Condition 2: "a side is 0 or above 255".
fn some_side_is_bad(sides: &[usize]) -> bool {
    sides.iter().any(|&side| side == 0 || side > 255)
}

/// A sheet and a motif with their sides: what the operations on both of them are given.
#[derive(Clone, Copy)]
pub struct Given<'a> {
    pub text: &'a [u8],
    pub rows: usize,
    pub columns: usize,
    pub pattern: &'a [u8],
    pub height: usize,
    pub width: usize,
}

impl<'a> Given<'a> {
    pub fn of(
        text: &'a [u8],
        rows: usize,
        columns: usize,
        pattern: &'a [u8],
        height: usize,
        width: usize,
    ) -> Given<'a> {
        Given {
            text,
            rows,
            columns,
            pattern,
            height,
            width,
        }
    }
}

/// The first of the conditions 2 and 3 that holds of a sheet and a motif, with whether one does.
fn cells_condition(given: Given) -> (u8, bool) {
    let [rows, columns, height, width] = [given.rows, given.columns, given.height, given.width];
    let number = first_refusal(&[
        (2, some_side_is_bad(&[rows, columns, height, width])),
        (
            3,
            given.text.len() as u128 != product(rows, columns)
                || given.pattern.len() as u128 != product(height, width),
        ),
    ]);
    (number, number != 0)
}

/// The first of the conditions 2, 3 and 4, likewise.
fn input_condition(given: Given) -> (u8, bool) {
    let number = first_refusal(&[
        cells_condition(given),
        (4, given.height > given.rows || given.width > given.columns),
    ]);
    (number, number != 0)
}

/// A product, at a width at which no two sizes overflow.
fn product(a: usize, b: usize) -> u128 {
    a as u128 * b as u128
}

/// The buffer with new values in its first places, and the rest as it was.
fn with_first<T: Copy>(new: Vec<T>, buffer: &[T]) -> Vec<T> {
    [&new, &buffer[new.len()..]].concat()
}

/// "Strips and links": the outcome's number, and the links buffer afterwards.
pub fn strip_links(
    text: &[u8],
    rows: usize,
    columns: usize,
    width: usize,
    column: usize,
    links: &[u16],
) -> (u8, Vec<u16>) {
    let number = first_refusal(&[
        (2, some_side_is_bad(&[rows, columns, width])),
        (3, text.len() as u128 != product(rows, columns)),
        (4, width > columns),
        (5, column as i128 > columns as i128 - width as i128),
        (9, (links.len() as u128) < product(rows, width)),
    ]);
    if number != 0 {
        return (number, links.to_vec());
    }
    let strip = cells(text, columns, 0, column, rows, width);
    let new = (0..strip.len()).map(|p| link(&strip, p)).collect();
    (0, with_first(new, links))
}

/// "The distance back to the nearest earlier position of the same strip with the same number, or 0."
fn link(strip: &[u8], p: usize) -> u16 {
    let distance = (1..=p).find(|d| strip[p - d] == strip[p]).unwrap_or(0);
    u16::try_from(distance).expect("a strip has fewer than 65,536 positions")
}

/// "Tallies": the outcome's number, and the tallies buffer afterwards.
pub fn distinct_counts(
    text: &[u8],
    rows: usize,
    columns: usize,
    height: usize,
    width: usize,
    counts: &[u16],
) -> (u8, Vec<u16>) {
    let number = first_refusal(&[
        (2, some_side_is_bad(&[rows, columns, height, width])),
        (3, text.len() as u128 != product(rows, columns)),
        (4, height > rows || width > columns),
        (
            10,
            (counts.len() as i128) < windows(rows, columns, height, width),
        ),
    ]);
    if number != 0 {
        return (number, counts.to_vec());
    }
    let mut new = Vec::new();
    for row in 0..=rows - height {
        for column in 0..=columns - width {
            let mut occurs = [false; 256];
            for symbol in cells(text, columns, row, column, height, width) {
                occurs[usize::from(symbol)] = true;
            }
            new.push(occurs.iter().filter(|&&occurs| occurs).count() as u16);
        }
    }
    (0, with_first(new, counts))
}

/// "The number of windows", of a size that fits into the text.
fn windows(rows: usize, columns: usize, height: usize, width: usize) -> i128 {
    let down = rows as i128 - height as i128 + 1;
    let across = columns as i128 - width as i128 + 1;
    down.saturating_mul(across)
}

/// The cells of the `height` by `width` part of a text at a corner, row by row.
fn cells(
    text: &[u8],
    columns: usize,
    row: usize,
    column: usize,
    height: usize,
    width: usize,
) -> Vec<u8> {
    let mut found = Vec::new();
    for i in 0..height {
        let first = (row + i) * columns + column;
        found.extend(&text[first..first + width]);
    }
    found
}

/// "A window is read through its corner and the sheet's row width": the cell after `row + i` whole rows and `column +
/// j` cells.
pub fn window_cell(text: &[u8], row_width: u8, row: u8, column: u8, i: u8, j: u8) -> Option<u8> {
    let mut left = text.iter();
    for _ in 0..row as usize + i as usize {
        for _ in 0..row_width {
            left.next()?;
        }
    }
    for _ in 0..column as usize + j as usize {
        left.next()?;
    }
    left.next().copied()
}

/// "The set of numbers in a motif."
pub fn symbol_set(pattern: &[u8]) -> BTreeSet<u8> {
    pattern.iter().copied().collect()
}

/// "Held as 256 bits": the bit of each member is 1, from the lowest bit of the first word on.
pub fn words_of(set: &BTreeSet<u8>) -> [u64; 4] {
    let mut words = [0; 4];
    for &symbol in set {
        words[symbol as usize / 64] |= 1 << (symbol % 64);
    }
    words
}

/// The set that four words hold.
pub fn set_of(words: [u64; 4]) -> BTreeSet<u8> {
    (0..=255)
        .filter(|&symbol: &u8| words[symbol as usize / 64] >> (symbol % 64) & 1 == 1)
        .collect()
}

#[cfg(test)]
mod tests {
    use super::*;

    /// The first draft's text (sheet), 2 by 3.
    const TEXT: [u8; 6] = [7, 7, 3, 3, 7, 7];

    #[test]
    fn links_of_the_first_draft() {
        assert_eq!(
            strip_links(&TEXT, 2, 3, 2, 0, &[9; 4]),
            (0, vec![0, 1, 0, 2])
        );
        assert_eq!(
            strip_links(&TEXT, 2, 3, 2, 1, &[9; 6]),
            (0, vec![0, 0, 2, 1, 9, 9])
        );
    }

    #[test]
    fn counts_of_the_first_draft() {
        assert_eq!(
            distinct_counts(&TEXT, 2, 3, 2, 2, &[9; 3]),
            (0, vec![2, 2, 9])
        );
    }

    #[test]
    fn links_are_refused_in_order() {
        let number = |text: &[u8], rows, columns, width, column, room: usize| {
            let noise = vec![9; room];
            let (number, after) = strip_links(text, rows, columns, width, column, &noise);
            assert_eq!(after, noise, "a refusal changes no buffer");
            number
        };
        assert_eq!(number(&TEXT[..5], 0, 3, 4, 9, 0), 2);
        assert_eq!(number(&TEXT[..5], 2, 256, 4, 9, 0), 2);
        assert_eq!(number(&TEXT[..5], 2, 3, 4, 9, 0), 3);
        assert_eq!(number(&TEXT, 2, 3, 4, 9, 0), 4);
        assert_eq!(number(&TEXT, 2, 3, 2, 2, 0), 5);
        assert_eq!(number(&TEXT, 2, 3, 2, 1, 3), 9);
    }

    #[test]
    fn counts_are_refused_in_order() {
        let number = |text: &[u8], rows, columns, height, width, room: usize| {
            let noise = vec![9; room];
            let (number, after) = distinct_counts(text, rows, columns, height, width, &noise);
            assert_eq!(after, noise, "a refusal changes no buffer");
            number
        };
        assert_eq!(number(&TEXT[..5], 2, 3, 0, 4, 0), 2);
        assert_eq!(number(&TEXT[..5], 2, 3, 3, usize::MAX, 0), 2);
        assert_eq!(number(&TEXT[..5], 2, 3, 3, 4, 0), 3);
        assert_eq!(number(&TEXT, 2, 3, 3, 2, 0), 4);
        assert_eq!(number(&TEXT, 2, 3, 2, 4, 0), 4);
        assert_eq!(number(&TEXT, 2, 3, 2, 2, 1), 10);
    }

    #[test]
    fn a_side_of_255_is_accepted() {
        let text = [5; 255];
        assert_eq!(strip_links(&text, 255, 1, 1, 0, &[9; 255]).0, 0);
        assert_eq!(
            distinct_counts(&text, 1, 255, 1, 255, &[9; 1]),
            (0, vec![1])
        );
    }

    #[test]
    fn cells_of_the_first_draft() {
        let window = [(0, 0), (0, 1), (1, 0), (1, 1)];
        let found: Vec<_> = window
            .map(|(i, j)| window_cell(&TEXT, 3, 0, 1, i, j))
            .into();
        assert_eq!(found, [Some(7), Some(3), Some(7), Some(7)]);
        assert_eq!(window_cell(&TEXT, 3, 1, 2, 0, 1), None);
        assert_eq!(window_cell(&TEXT, 0, 200, 5, 200, 0), Some(7));
    }

    #[test]
    fn symbols_of_the_first_draft() {
        let set = symbol_set(&[1, 1, 2, 1]);
        assert_eq!(set, BTreeSet::from([1, 2]));
        assert_eq!(words_of(&set), [0b110, 0, 0, 0]);
        assert_eq!(
            set_of([1 << 63, 1, 0, 1 << 63]),
            BTreeSet::from([63, 64, 255])
        );
    }
}
