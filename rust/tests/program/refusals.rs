//! Every refusal of the program, alone and beside those that come later in its order: 1, 2, 8, 3, 4, 11.

use crate::{input, printed};

/// An input of these sides, as many cells of the text and as many of the pattern as the sides ask for, and what was
/// given too much.
fn with_cells(sides: [u8; 4], too_many: usize) -> Vec<u8> {
    let [rows, columns, height, width] = sides.map(usize::from);
    let (text, pattern) = (vec![5; rows * columns], vec![9; height * width + too_many]);
    input(sides, &text, &pattern)
}

fn assert_refused(number: u8, input: &[u8]) {
    let sizes = &input[..input.len().min(4)];
    assert_eq!(
        printed(input),
        format!("refused {number}\n"),
        "sizes {sizes:?}, {} bytes in all",
        input.len()
    );
}

#[test]
fn fewer_than_4_sizes_are_refused_by_1() {
    for sizes in [
        &[][..],
        &[1],
        &[1, 1],
        &[1, 1, 1],
        // 0 and 255 × 255 would be 2 and 8.
        &[0],
        &[0, 0, 0],
        &[255, 255, 255],
    ] {
        assert_refused(1, sizes);
    }
}

#[test]
fn a_side_of_0_is_refused_by_2() {
    for place in 0..4 {
        // Nothing else is wrong.
        let mut sides = [1; 4];
        sides[place] = 0;
        assert_refused(2, &with_cells(sides, 0));
        // Too many cells elsewhere, too few of them, a pattern too large.
        let mut sides = [255; 4];
        sides[place] = 0;
        assert_refused(2, &sides);
        let mut sides = [1, 1, 2, 2];
        sides[place] = 0;
        assert_refused(2, &sides);
        assert_refused(2, &with_cells(sides, 1));
    }
    assert_refused(2, &[0; 4]);
}

#[test]
fn more_than_16_384_cells_are_refused_by_8() {
    // 145 × 113 = 16,385, and 129 × 127 = 16,383.
    for (rows, columns) in [
        (145, 113),
        (113, 145),
        (128, 129),
        (129, 128),
        (65, 255),
        (255, 65),
        (255, 255),
    ] {
        for sides in [[rows, columns, 1, 1], [rows, columns, rows, columns]] {
            // Nothing else is wrong; and no cells at all, one too many.
            assert_refused(8, &with_cells(sides, 0));
            assert_refused(8, &sides);
            assert_refused(8, &with_cells(sides, 1));
        }
        // The pattern alone. It is larger than the text, too.
        for sides in [[1, 1, rows, columns], [1, 255, rows, columns]] {
            assert_refused(8, &with_cells(sides, 0));
            assert_refused(8, &sides);
        }
    }
    // Just few enough: the next in the order are 3 and 4.
    for (rows, columns) in [(129, 127), (127, 129), (128, 128), (64, 255), (255, 64)] {
        assert_refused(3, &[rows, columns, 1, 1]);
        assert_refused(3, &with_cells([rows, columns, rows, columns], 1));
        assert_refused(4, &with_cells([1, 1, rows, columns], 0));
    }
}

#[test]
fn cells_that_are_not_rows_times_columns_are_refused_by_3() {
    for sides in [[1, 1, 1, 1], [2, 3, 2, 2], [1, 255, 1, 255], [16, 16, 4, 4]] {
        let right = with_cells(sides, 0);
        assert_refused(3, &right[..right.len() - 1]);
        assert_refused(3, &right[..4]);
        assert_refused(3, &with_cells(sides, 1));
        assert_refused(3, &with_cells(sides, 300));
    }
    // The pattern does not fit, too; the listing would be too long, too.
    assert_refused(3, &with_cells([1, 1, 2, 1], 1));
    assert_refused(3, &[1, 2, 2, 1, 5, 5, 9]);
    assert_refused(3, &with_cells([128, 128, 1, 1], 1));
    let one_short = with_cells([128, 128, 1, 1], 0);
    assert_refused(3, &one_short[..one_short.len() - 1]);
}

#[test]
fn a_pattern_taller_or_wider_than_the_text_is_refused_by_4() {
    for sides in [
        [1, 1, 2, 1],
        [1, 1, 1, 2],
        [2, 3, 3, 2],
        // As many cells as the text, and fewer.
        [2, 3, 1, 6],
        [6, 1, 1, 2],
        [1, 255, 2, 1],
        [255, 1, 1, 2],
        [254, 1, 255, 1],
        [1, 254, 1, 255],
        [127, 128, 128, 128],
        [128, 127, 128, 128],
        [64, 255, 255, 64],
    ] {
        assert_refused(4, &with_cells(sides, 0));
    }
}

#[test]
fn a_listing_that_is_too_long_is_refused_by_11() {
    // Every window of one cell is found, 6 bytes each: 16,384, 12,100 and 64 × 255 of them.
    for sides in [[128, 128, 1, 1], [110, 110, 1, 1], [64, 255, 1, 1]] {
        assert_refused(11, &with_cells(sides, 0));
    }
    // 128 × 127 windows of two cells, all refused, 7 bytes each.
    let all_refused = input([128, 128, 1, 2], &[5; 128 * 128], &[1, 2]);
    assert_refused(11, &all_refused);
}
