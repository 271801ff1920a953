//! "One window" by brute force: each cell is compared with all before it.

use crate::bijections::{columns_of, Columns};
use crate::{cells, first_refusal, input_condition, Given};
use std::collections::BTreeSet;

/// What is answered: the outcome's number; the kind of the clash with its earlier and its later cell, or three zeros;
/// the renaming. Beside a clash or a refusal stands the empty renaming, which document 01 leaves open.
type Answer = (u8, [usize; 3], Columns);

/// "The answer is the renaming, mating just the motif's numbers, or a clash."
#[allow(clippy::too_many_arguments)]
pub fn one_window(
    text: &[u8],
    rows: usize,
    columns: usize,
    pattern: &[u8],
    height: usize,
    width: usize,
    row: usize,
    column: usize,
) -> Answer {
    answer_at(
        Given::of(text, rows, columns, pattern, height, width),
        row,
        column,
    )
}

/// The same of what is given in one piece.
pub(crate) fn answer_at(given: Given, row: usize, column: usize) -> Answer {
    let beyond = |at: usize, whole: usize, part: usize| at as i128 > whole as i128 - part as i128;
    let number = first_refusal(&[
        input_condition(given),
        (
            5,
            beyond(row, given.rows, given.height) || beyond(column, given.columns, given.width),
        ),
    ]);
    let nothing = BTreeSet::new();
    if number != 0 {
        return (number, [0; 3], columns_of(&nothing));
    }
    let window = cells(
        given.text,
        given.columns,
        row,
        column,
        given.height,
        given.width,
    );
    match pairs_or_clash(given.pattern, &window) {
        Ok(pairs) => (0, [0; 3], columns_of(&pairs)),
        Err(found) => (0, found, columns_of(&nothing)),
    }
}

/// The pairs of motif number and window number, cell by cell, or else the clash: "the later cell of the clash is the
/// first at which any clash ends; the earlier is then the first that clashes with it".
///
/// A cell whose pair stood in a cell before is alike with that cell on both sides, so it clashes with just what that
/// cell clashes with. Up to here nothing clashes, and so no clash ends in it.
fn pairs_or_clash(pattern: &[u8], window: &[u8]) -> Result<BTreeSet<(u8, u8)>, [usize; 3]> {
    let mut pairs = BTreeSet::new();
    for later in 0..pattern.len() {
        if pairs.insert((pattern[later], window[later])) {
            if let Some(found) = clash_ending(pattern, window, later) {
                return Err(found);
            }
        }
    }
    Ok(pairs)
}

/// The first cell that clashes with this later one. Kind 3 is "alike in the motif only", kind 4 "alike in the window
/// only".
fn clash_ending(pattern: &[u8], window: &[u8], later: usize) -> Option<[usize; 3]> {
    for earlier in 0..later {
        let in_pattern = pattern[earlier] == pattern[later];
        let in_window = window[earlier] == window[later];
        match (in_pattern, in_window) {
            (true, false) => return Some([3, earlier, later]),
            (false, true) => return Some([4, earlier, later]),
            _ => (),
        }
    }
    None
}

#[cfg(test)]
mod tests {
    use super::*;

    /// The first draft's text (sheet), 2 by 3, and its pattern (motif), 2 by 2.
    const TEXT: [u8; 6] = [7, 7, 3, 3, 7, 7];
    const PATTERN: [u8; 4] = [1, 1, 2, 1];

    #[test]
    fn windows_of_the_first_draft() {
        let pairs = columns_of(&BTreeSet::from([(1, 7), (2, 3)]));
        let none = columns_of(&BTreeSet::new());
        assert_eq!(
            one_window(&TEXT, 2, 3, &PATTERN, 2, 2, 0, 0),
            (0, [0; 3], pairs)
        );
        assert_eq!(
            one_window(&TEXT, 2, 3, &PATTERN, 2, 2, 0, 1),
            (0, [3, 0, 1], none)
        );
    }

    /// Every pair of cells is looked at.
    fn clash(pattern: &[u8], window: &[u8]) -> Option<[usize; 3]> {
        (0..pattern.len()).find_map(|later| clash_ending(pattern, window, later))
    }

    #[test]
    fn one_row_drafts() {
        assert_eq!(clash(&[5], &[5]), None);
        assert_eq!(clash(&[1, 2], &[4, 4]), Some([4, 0, 1]));
        assert_eq!(clash(&[1, 1], &[4, 5]), Some([3, 0, 1]));
        assert_eq!(clash(&[1, 2, 1], &[4, 5, 5]), Some([3, 0, 2]));
        assert_eq!(clash(&[1, 2, 2], &[4, 5, 4]), Some([4, 0, 2]));
        assert_eq!(clash(&[1, 2], &[2, 1]), None);
    }

    /// Every list of five symbols from 0, 1 and 2.
    fn lists_of_five() -> Vec<[u8; 5]> {
        let digit = |number: u32, place| (number / 3u32.pow(place) % 3) as u8;
        (0..3u32.pow(5))
            .map(|number| [0, 1, 2, 3, 4].map(|place| digit(number, place)))
            .collect()
    }

    /// No cell whose pair stood before is where the first clash ends.
    #[test]
    fn repeated_pairs_end_no_clash() {
        for pattern in lists_of_five() {
            for window in lists_of_five() {
                let pairs = pattern.into_iter().zip(window).collect();
                let expected = clash(&pattern, &window).map_or(Ok(pairs), Err);
                assert_eq!(pairs_or_clash(&pattern, &window), expected);
            }
        }
    }

    #[test]
    fn refused_in_order() {
        let number = |cells: usize, rows, pattern_cells: usize, height, row| {
            one_window(
                &TEXT[..cells],
                rows,
                3,
                &[1; 6][..pattern_cells],
                height,
                2,
                row,
                0,
            )
            .0
        };
        assert_eq!(number(5, 0, 5, 3, 1), 2);
        assert_eq!(number(5, 2, 6, 3, 1), 3);
        assert_eq!(number(6, 2, 5, 3, 1), 3);
        assert_eq!(number(6, 2, 6, 3, 1), 4);
        assert_eq!(number(6, 2, 4, 2, 1), 5);
        assert_eq!(number(6, 2, 4, 2, usize::MAX), 5);
        assert_eq!(number(6, 2, 4, 2, 0), 0);
    }
}
