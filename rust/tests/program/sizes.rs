//! The largest inputs and outputs: the most cells, the longest listings, sides of 255, numbers of three digits.

use crate::run::output_of;
use crate::{input, lines, printed};
use brute::Buffers;

/// The program's listing buffer (document 01, 'The program').
const LISTING_BYTES: usize = 65_536;

/// A text and a pattern with their sides R, C, r, c.
struct Given {
    sides: [u8; 4],
    text: Vec<u8>,
    pattern: Vec<u8>,
}

impl Given {
    /// A text that is constant but for these cells, given by row and column.
    fn constant(sides: [u8; 4], pattern: &[u8], changed: &[(usize, usize)]) -> Given {
        let [rows, columns] = [sides[0], sides[1]].map(usize::from);
        let mut text = vec![5; rows * columns];
        for (row, column) in changed {
            text[row * columns + column] = 6;
        }
        Given {
            sides,
            text,
            pattern: pattern.to_vec(),
        }
    }

    fn input(&self) -> Vec<u8> {
        input(self.sides, &self.text, &self.pattern)
    }

    /// How long the brute force says that the listing is.
    fn listing_length(&self) -> usize {
        let [rows, columns, height, width] = self.sides.map(usize::from);
        let lent = Buffers {
            links: vec![0; rows * columns],
            counts: vec![0; rows * columns],
            flags: vec![0; rows * columns],
            listing: vec![],
        };
        let search = brute::search(
            &self.text,
            rows,
            columns,
            &self.pattern,
            height,
            width,
            &lent,
        );
        search.1[0]
    }

    /// Compares with the brute force: a listing of this length is printed in full, or refused where it is longer than
    /// the buffer.
    fn assert_listed(&self, length: usize) {
        assert_eq!(self.listing_length(), length);
        let output = output_of(&self.input());
        assert_eq!(
            output == b"refused 11\n",
            length > LISTING_BYTES,
            "a listing of {length} bytes"
        );
        assert!(
            output == brute::program(&self.input()),
            "sizes {:?}, a listing of {length} bytes",
            self.sides
        );
    }
}

/// Cells in the middle of rows of their own.
fn middle_cells(number: usize) -> Vec<(usize, usize)> {
    (0..number).map(|row| (row, 2)).collect()
}

/// Pattern 1 1 on a text of 104 × 106 has 104 × 105 = 10,920 windows. A found one takes 6 bytes, a refused one 7, so
/// that the listing has 6 × 10,920 + 5 = 65,525 bytes and one more for each refused window. A changed cell in the
/// middle of a row spoils two windows, one at its end one.
#[test]
fn a_listing_of_65_536_bytes_is_printed_and_one_of_65_537_is_refused() {
    for (middle, end, length) in [
        (0, 0, 65_525),
        (5, 0, 65_535),
        (5, 1, 65_536),
        (6, 0, 65_537),
        (6, 1, 65_538),
    ] {
        let mut changed = middle_cells(middle);
        changed.extend((0..end).map(|row| (100 + row, 105)));
        Given::constant([104, 106, 1, 2], &[1, 1], &changed).assert_listed(length);
    }
}

/// Pattern 1 2 matches no window of a constant text. A found window takes 9 bytes; a changed cell in the middle of a
/// row makes two of them. 253 × 37 = 9,361 windows with 2 found are 9 × 2 + 7 × 9,359 + 5 = 65,536 bytes, 240 × 39 =
/// 9,360 with 6 are 65,537.
#[test]
fn the_limit_counts_found_and_refused_windows() {
    let listed = |rows, columns, cells, length| {
        let changed = middle_cells(cells);
        Given::constant([rows, columns, 1, 2], &[1, 2], &changed).assert_listed(length);
    };
    listed(253, 38, 1, 65_536);
    listed(240, 40, 3, 65_537);
    listed(240, 40, 2, 65_533);
}

/// A text of rising symbols, and a pattern of one row of as many symbols as it has cells: all windows are found.
fn all_found(rows: u8, width: u8) -> Given {
    let row: Vec<u8> = (0..=254).collect();
    Given {
        sides: [rows, 255, 1, width],
        text: row.repeat(usize::from(rows)),
        pattern: (255 - width..255).collect(),
    }
}

/// An input whose output has more than 200,000 bytes, which no pipe holds at once.
pub fn long_output() -> Vec<u8> {
    all_found(2, 52).input()
}

/// A pair of three-digit symbols takes 10 bytes of output for its 3 of the listing. With 52 symbols two rows of 204
/// windows have 408 × (3 + 3 × 52) + 5 bytes of listing, with 53 symbols two of 203 have 406 × (3 + 3 × 53) + 5.
#[test]
fn the_longest_outputs_are_printed_in_full() {
    all_found(2, 52).assert_listed(64_877);
    let output = printed(&long_output());
    assert!(output.len() > 200_000, "{} bytes", output.len());
    assert!(output.starts_with("1 0 0\n2 203 0\n2 204 1\n"));
    assert!(output.ends_with("2 253 253\n2 254 254\n5 1 152 0 0\n"));
    all_found(2, 53).assert_listed(65_777);
    all_found(1, 128).assert_listed(49_541);
    all_found(1, 255).assert_listed(773);
}

#[test]
fn texts_and_patterns_of_16_384_cells_are_accepted() {
    let sides = [128; 4];
    let pattern = vec![9; 16_384];
    let whole =
        |changed: &[(usize, usize)]| printed(&Given::constant(sides, &pattern, changed).input());
    assert_eq!(whole(&[]), lines(&["1 0 0", "2 9 5", "5 0 1 0 0"]));
    // The last cell alone spoils it, and then the first: the second cell is the first that differs from one before it.
    assert_eq!(
        whole(&[(127, 127)]),
        lines(&["3 0 0 0 0 127 127", "5 0 0 0 1"])
    );
    assert_eq!(whole(&[(0, 0)]), lines(&["3 0 0 0 0 0 1", "5 0 0 0 1"]));

    // 9 windows of 126 × 126.
    let windows: String = (0..3)
        .flat_map(|row| (0..3).map(move |column| format!("1 {row} {column}\n2 9 5\n")))
        .collect();
    let part = Given::constant([128, 128, 126, 126], &[9; 126 * 126], &[]);
    assert_eq!(printed(&part.input()), windows + "5 0 9 0 0\n");
}

/// A side of 255, in each place and in all that can have it together.
#[test]
fn sides_of_255_are_accepted() {
    let one_cell = |sides| printed(&Given::constant(sides, &[9], &[]).input());
    let across: String = (0..255).map(|at| format!("1 0 {at}\n2 9 5\n")).collect();
    let down: String = (0..255).map(|at| format!("1 {at} 0\n2 9 5\n")).collect();
    assert_eq!(one_cell([1, 255, 1, 1]), across + "5 0 255 0 0\n");
    assert_eq!(one_cell([255, 1, 1, 1]), down + "5 0 255 0 0\n");

    let found = lines(&["1 0 0", "2 9 5", "5 0 1 0 0"]);
    for sides in [
        [1, 255, 1, 255],
        [255, 1, 255, 1],
        [64, 255, 64, 255],
        [255, 64, 255, 64],
    ] {
        let cells = usize::from(sides[2]) * usize::from(sides[3]);
        let given = |changed: &[(usize, usize)]| Given::constant(sides, &vec![9; cells], changed);
        assert_eq!(printed(&given(&[]).input()), found);
        // The last cell alone spoils it.
        let (row, column) = (sides[2] - 1, sides[3] - 1);
        let spoilt = given(&[(usize::from(row), usize::from(column))]);
        assert_eq!(
            printed(&spoilt.input()),
            format!("3 0 0 0 0 {row} {column}\n5 0 0 0 1\n")
        );
    }
}
