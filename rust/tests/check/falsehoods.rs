//! What is refused by 7: a record of right form that states what is not so.

use crate::{
    accepted, falsehood, one_row, records, with, CLOSING, FOUND, MISMATCH, PAIR_OF_1, PAIR_OF_2,
};
use colourway::check;

#[test]
fn another_window_than_the_one_due_is_false() {
    for found in [[1, 0, 1], [1, 1, 0], [1, 255, 255]] {
        assert_eq!(with(0, &found), falsehood(0));
    }
    // The cells are true of the window that is due, and the record names another.
    for mismatch in [
        [3, 0, 0, 0, 0, 0, 1],
        [3, 0, 2, 0, 0, 0, 1],
        [3, 1, 0, 0, 0, 0, 1],
        [3, 1, 1, 0, 0, 0, 1],
        [4, 1, 1, 0, 0, 1, 0],
    ] {
        assert_eq!(with(3, &mismatch), falsehood(9));
    }
    // The two windows out of order, and one of them twice.
    assert_eq!(
        records(&[MISMATCH, FOUND, PAIR_OF_1, PAIR_OF_2, CLOSING]),
        falsehood(0)
    );
    assert_eq!(
        records(&[FOUND, PAIR_OF_1, PAIR_OF_2, FOUND, PAIR_OF_1, PAIR_OF_2, CLOSING]),
        falsehood(9)
    );
}

#[test]
fn a_pattern_symbol_that_is_not_the_next_is_false() {
    // Out of order: the first one is bad.
    assert_eq!(
        records(&[FOUND, PAIR_OF_2, PAIR_OF_1, MISMATCH, CLOSING]),
        falsehood(3)
    );
    // One that the pattern does not have, with the window's symbol in the cells of the one that is due.
    assert_eq!(with(1, &[2, 0, 7]), falsehood(3));
    assert_eq!(with(2, &[2, 3, 3]), falsehood(6));
    // One that was due before.
    assert_eq!(with(2, &[2, 1, 3]), falsehood(6));
    assert_eq!(with(2, PAIR_OF_1), falsehood(6));
}

#[test]
fn a_text_symbol_that_differs_from_some_cell_is_false() {
    assert_eq!(with(1, &[2, 1, 6]), falsehood(3));
    assert_eq!(with(2, &[2, 2, 2]), falsehood(6));
    // Where the window has two symbols under one, neither will do.
    for text in [4, 5] {
        let pair = [2, 1, text];
        assert_eq!(
            one_row(&[4, 5], &[1, 1], &[FOUND, &pair, &[5, 0, 1, 0, 0]]),
            falsehood(3)
        );
    }
    // The second window of the first draft as found: 7 and 3 stand under 1.
    assert_eq!(
        records(&[
            FOUND,
            PAIR_OF_1,
            PAIR_OF_2,
            &[1, 0, 1],
            PAIR_OF_1,
            PAIR_OF_2,
            &[5, 0, 2, 0, 0]
        ]),
        falsehood(12)
    );
}

#[test]
fn a_text_symbol_given_twice_is_false() {
    let closing: &[u8] = &[5, 0, 1, 0, 0];
    // Both pairs have the window's symbols.
    assert_eq!(
        one_row(&[4, 4], &[1, 2], &[FOUND, &[2, 1, 4], &[2, 2, 4], closing]),
        falsehood(6)
    );
    // Not only the one just before counts.
    let pairs: [&[u8]; 3] = [&[2, 1, 4], &[2, 2, 5], &[2, 3, 4]];
    assert_eq!(
        one_row(
            &[4, 5, 4],
            &[1, 2, 3],
            &[FOUND, pairs[0], pairs[1], pairs[2], closing]
        ),
        falsehood(9)
    );
    // In another window it may stand again.
    assert_eq!(
        one_row(
            &[4, 4],
            &[1],
            &[FOUND, &[2, 1, 4], &[1, 0, 1], &[2, 1, 4], &[5, 0, 2, 0, 0]]
        ),
        accepted(2, 0)
    );
}

#[test]
fn cells_outside_the_pattern_are_false() {
    for mismatch in [
        [3, 0, 1, 0, 0, 0, 2],
        [3, 0, 1, 0, 0, 2, 0],
        [3, 0, 1, 0, 0, 0, 255],
        [3, 0, 1, 0, 0, 255, 0],
        [3, 0, 1, 2, 0, 2, 1],
        [3, 0, 1, 255, 255, 255, 255],
        [4, 0, 1, 0, 0, 2, 0],
        // Row × width + column is the position of a cell that will do: (0, 1) with (1, 1), and (1, 0) with (1, 1).
        [3, 0, 1, 0, 1, 0, 3],
        [4, 0, 1, 0, 2, 1, 1],
        [4, 0, 1, 0, 2, 0, 3],
    ] {
        assert_eq!(with(3, &mismatch), falsehood(9), "{mismatch:?}");
    }
}

#[test]
fn cells_that_are_not_earlier_before_later_are_false() {
    for mismatch in [
        // True ones with the cells exchanged.
        [3, 0, 1, 0, 1, 0, 0],
        [3, 0, 1, 1, 1, 0, 1],
        [4, 0, 1, 1, 0, 0, 0],
        [4, 0, 1, 1, 1, 1, 0],
        // One cell twice.
        [3, 0, 1, 0, 0, 0, 0],
        [4, 0, 1, 1, 1, 1, 1],
    ] {
        assert_eq!(with(3, &mismatch), falsehood(9), "{mismatch:?}");
    }
    // Cells are in row-by-row order: (0, 1) is earlier than (1, 0).
    let square = |mismatch: &[u8]| {
        let listing = [mismatch, &[5, 0, 0, 0, 1]].concat();
        check(&[4, 5, 6, 7], 2, 2, &[1, 2, 2, 3], 2, 2, &listing)
    };
    assert_eq!(square(&[3, 0, 0, 0, 1, 1, 0]), accepted(0, 1));
    assert_eq!(square(&[3, 0, 0, 1, 0, 0, 1]), falsehood(0));
}

#[test]
fn cells_that_are_not_alike_as_the_kind_says_are_false() {
    for mismatch in [
        // Alike in the pattern only, and in the window only.
        [4, 0, 1, 0, 0, 0, 1],
        [3, 0, 1, 0, 0, 1, 0],
        // Alike on both sides.
        [3, 0, 1, 0, 0, 1, 1],
        [4, 0, 1, 0, 0, 1, 1],
        // Alike on neither.
        [3, 0, 1, 0, 1, 1, 0],
        [4, 0, 1, 0, 1, 1, 0],
    ] {
        assert_eq!(with(3, &mismatch), falsehood(9), "{mismatch:?}");
    }
    // The found window has no mismatch: whatever two cells are named, the record is false.
    let mut tried = 0;
    for kind in [3, 4] {
        for cells in 0..16 {
            let [i, j, x, y] = [cells / 8, cells / 4 % 2, cells / 2 % 2, cells % 2];
            let mismatch: &[u8] = &[kind, 0, 0, i, j, x, y];
            assert_eq!(
                records(&[mismatch, MISMATCH, &[5, 0, 0, 0, 2]]),
                falsehood(0)
            );
            tried += 1;
        }
    }
    assert_eq!(tried, 32);
}

#[test]
fn wrong_closing_counts_are_false() {
    for closing in [
        [5, 0, 0, 0, 1],
        [5, 0, 2, 0, 1],
        [5, 0, 1, 0, 0],
        [5, 0, 1, 0, 2],
        [5, 1, 1, 0, 1],
        [5, 0, 1, 1, 1],
        // The sum is right.
        [5, 0, 2, 0, 0],
        [5, 0, 0, 0, 2],
        // The low byte first.
        [5, 1, 0, 1, 0],
    ] {
        assert_eq!(with(4, &closing), falsehood(16), "{closing:?}");
    }
    // Found and refused exchanged.
    assert_eq!(
        one_row(&[5], &[5], &[FOUND, &[2, 5, 5], &[5, 0, 0, 0, 1]]),
        falsehood(6)
    );
}
