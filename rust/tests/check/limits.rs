//! The largest texts, all symbols, and the refusals that come before the listing's own.

use crate::{accepted, falsehood, form, LISTING, NOISE, TEXT};
use colourway::{check, check_into, CheckRefusal, Refusal};

#[test]
fn sides_of_255_are_accepted() {
    let text = vec![5; 255 * 255];
    let corners =
        |last: u8| (0..=254).flat_map(move |row| (0..=last).map(move |column| [row, column]));

    // One symbol matches every window of one cell: 65,025 are 254 × 256 + 1.
    let mut listing: Vec<u8> = corners(254)
        .flat_map(|[row, column]| [1, row, column, 2, 9, 5])
        .collect();
    listing.extend([5, 254, 1, 0, 0]);
    let one_cell = |listing: &[u8]| check(&text, 255, 255, &[9], 1, 1, listing);
    assert_eq!(one_cell(&listing), accepted(65_025, 0));
    let closing = 65_025 * 6;
    assert_eq!(one_cell(&listing[..closing]), form(closing));
    listing[closing + 1] = 253;
    assert_eq!(one_cell(&listing), falsehood(closing));
    listing[closing - 1] = 6;
    assert_eq!(one_cell(&listing), falsehood(closing - 3));

    // Two symbols match none of two cells: 255 × 254 = 64,770 are 253 × 256 + 2.
    let mut listing: Vec<u8> = corners(253)
        .flat_map(|[row, column]| [4, row, column, 0, 0, 0, 1])
        .collect();
    listing.extend([5, 0, 0, 253, 2]);
    assert_eq!(
        check(&text, 255, 255, &[1, 2], 1, 2, &listing),
        accepted(0, 64_770)
    );

    // A pattern as large as the text has one window: its last cell alone spoils it.
    let mut text = text;
    text[255 * 255 - 1] = 6;
    let pattern = vec![9; 255 * 255];
    let whole = |listing: &[u8]| check(&text, 255, 255, &pattern, 255, 255, listing);
    let closing = [5, 0, 0, 0, 1];
    for earlier in [[0, 0], [0, 254], [253, 254], [254, 0], [254, 253]] {
        let mismatch = [&[3, 0, 0], &earlier[..], &[254, 254]].concat();
        assert_eq!(whole(&[&mismatch[..], &closing].concat()), accepted(0, 1));
    }
    for cells in [
        [0, 0, 254, 253],
        [254, 254, 254, 254],
        [0, 0, 254, 255],
        [0, 0, 255, 254],
    ] {
        let mismatch = [&[3, 0, 0], &cells[..]].concat();
        assert_eq!(whole(&[&mismatch[..], &closing].concat()), falsehood(0));
    }
    // As found: 5 is not in its last cell.
    assert_eq!(whole(&[1, 0, 0, 2, 9, 5, 5, 0, 1, 0, 0]), falsehood(3));
}

/// A pattern that has all 256 symbols: number 0 is a yarn number like any other, and so is 255.
#[test]
fn all_symbols_are_symbols() {
    let pattern: Vec<u8> = (0..=255).collect();
    let text: Vec<u8> = (0..=255).rev().collect();
    let mut listing = vec![1, 0, 0];
    for symbol in 0..=255 {
        listing.extend([2, symbol, 255 - symbol]);
    }
    let pairs_end = 3 + 3 * 256;
    listing.extend([5, 0, 1, 0, 0]);
    let checked = |listing: &[u8]| check(&text, 16, 16, &pattern, 16, 16, listing);
    assert_eq!(checked(&listing), accepted(1, 0));

    // One pair too few, and one too many.
    let mut few = listing.clone();
    few.drain(pairs_end - 3..pairs_end);
    assert_eq!(checked(&few), form(pairs_end - 3));
    let mut many = listing.clone();
    many.splice(pairs_end..pairs_end, [2, 0, 255]);
    assert_eq!(checked(&many), form(pairs_end));

    // The last pair gives the symbol of the first again.
    listing[pairs_end - 1] = 255;
    assert_eq!(checked(&listing), falsehood(pairs_end - 3));
}

/// One input that earns every refusal at once, mended step by step, meets them in document 01's order. 2, 3 and 4 are
/// given whatever the listing is, and leave the totals; 6 and 7 write the place to the first and leave the second.
#[test]
fn refusals_come_in_order() {
    let number = |cells: usize, rows, pattern_cells: usize, height, listing: &[u8]| {
        let mut totals = [NOISE; 2];
        let outcome = check_into(
            &TEXT[..cells],
            rows,
            3,
            &[1, 1, 2, 1, 2, 1][..pattern_cells],
            height,
            2,
            listing,
            &mut totals,
        );
        (outcome.map_or_else(Refusal::number, |()| 0), totals)
    };
    let good = LISTING.concat();
    let mut bad = good.clone();
    bad[5] = 3;
    let untouched = [NOISE; 2];
    for listing in [&good[..], &bad, &good[..20], &[], &[9; 300]] {
        assert_eq!(number(5, 2, 5, 0, listing), (2, untouched));
        assert_eq!(number(5, 256, 5, 3, listing), (2, untouched));
        assert_eq!(number(5, 2, 5, 3, listing), (3, untouched));
        assert_eq!(number(5, 2, 6, 3, listing), (3, untouched));
        assert_eq!(number(6, 2, 5, 3, listing), (3, untouched));
        assert_eq!(number(6, 2, 6, 3, listing), (4, untouched));
    }
    assert_eq!(number(6, 2, 4, 2, &[]), (6, [0, NOISE]));
    assert_eq!(number(6, 2, 4, 2, &good[..20]), (6, [16, NOISE]));
    assert_eq!(number(6, 2, 4, 2, &bad), (7, [3, NOISE]));
    assert_eq!(number(6, 2, 4, 2, &good), (0, [1, 1]));
}

/// The sides of a text and a pattern that are right but for one: 0 and 256 are refused by 2, whichever side has them.
/// Text and pattern have as many cells as the bad sides ask for, so that nothing else is wrong.
#[test]
fn sides_of_0_and_256_are_refused() {
    for bad in [0, 256] {
        for place in 0..4 {
            let mut sides = [1; 4];
            sides[place] = bad;
            let [rows, columns, height, width] = sides;
            let text = vec![5; rows * columns];
            let pattern = vec![5; height * width];
            let listing = [1, 0, 0, 2, 5, 5, 5, 0, 1, 0, 0];
            assert_eq!(
                check(&text, rows, columns, &pattern, height, width, &listing),
                Err(CheckRefusal::Refused(Refusal::SideRange))
            );
        }
    }
}

#[test]
fn refusals_of_a_check_have_their_numbers() {
    let refused = CheckRefusal::Refused(Refusal::TooLarge);
    assert_eq!(refused.refusal(), Refusal::TooLarge);
    assert_eq!(refused.to_string(), "refused 4");
    let form = CheckRefusal::ListingForm { at: 21 };
    assert_eq!(form.refusal(), Refusal::ListingForm);
    assert_eq!(form.to_string(), "refused 6 at 21");
    let falsehood = CheckRefusal::ListingFalse { at: 3 };
    assert_eq!(falsehood.refusal().number(), 7);
    assert_eq!(falsehood.to_string(), "refused 7 at 3");
}
