//! The search at a scale: drafts by hand, and what it refuses.

use crate::{bad_sides, lines, Lent, Shaped, LISTING, NOISE, PATTERN, TEXT, TOTALS, WIDE_NOISE};
use colourway::{search_scaled, search_scaled_into, Refusal, SearchRefusal, Totals};

/// A text of 2 by 5 cells and a pattern of 1 by 2. At scale 2 the pattern is 1 1 2 2 / 1 1 2 2: of the two windows it
/// matches the first, 7 7 3 3 / 7 7 3 3, and not the second, 7 3 3 3 / 7 3 3 3.
const COARSE: [u8; 10] = [7, 7, 3, 3, 3, 7, 7, 3, 3, 3];
const MOTIF: [u8; 2] = [1, 2];

/// The refusal of a scale.
const UNFIT: SearchRefusal = SearchRefusal::Refused(Refusal::ScaleUnfit);

/// A search at a scale with room for everything: its totals, and the lines of its listing.
fn listed(text: Shaped, pattern: Shaped, scale: usize) -> (Totals, Vec<String>) {
    let ((text, rows, columns), (pattern, height, width)) = (text, pattern);
    let mut lent = Lent::of(65_025, 65_025, 65_025, 1 << 20);
    let buffers = lent.lend();
    let totals = search_scaled(text, rows, columns, pattern, height, width, scale, buffers);
    let totals = totals.expect("an accepted search");
    (totals, lines(&lent.listing[..totals.length]))
}

/// What a search of the coarse draft at a scale answers; refused, it changes nothing.
fn coarse_refusal(scale: usize) -> SearchRefusal {
    let mut lent = Lent::of(20, 10, 10, 99);
    let answer = search_scaled(&COARSE, 2, 5, &MOTIF, 1, 2, scale, lent.lend());
    assert_eq!(lent, Lent::of(20, 10, 10, 99), "scale {scale}");
    answer.expect_err("a scale that does not fit")
}

#[test]
fn a_coarse_draft() {
    let mut lent = Lent::of(10, 3, 3, 23);
    let totals = search_scaled(&COARSE, 2, 5, &MOTIF, 1, 2, 2, lent.lend());
    assert_eq!(totals, Ok(TOTALS));
    // Two rows of four links, two windows.
    assert_eq!(lent.links, [[0; 8].to_vec(), vec![WIDE_NOISE; 2]].concat());
    assert_eq!(lent.counts, [2, 2, WIDE_NOISE]);
    assert_eq!(lent.flags, [1, 0, NOISE]);
    assert_eq!(lent.listing[..21], LISTING);
    assert_eq!(lent.listing[21..], [NOISE, NOISE]);
}

/// The last cell alone spoils the window: (1, 3), a place that the small pattern does not have, with (0, 2).
#[test]
fn cells_are_named_in_the_enlarged_pattern() {
    let (_, lines) = listed((&[7, 7, 3, 3, 7, 7, 3, 4], 2, 4), (&MOTIF, 1, 2), 2);
    assert_eq!(lines, ["3 0 0 0 2 1 3", "5 0 0 0 1"]);
    // 7 7 / 7 8 for 1 1 / 1 1; and 7 7 7 / 7 7 7 / 8 7 7, where the third row begins it.
    let (_, lines) = listed((&[7, 7, 7, 8], 2, 2), (&[5], 1, 1), 2);
    assert_eq!(lines, ["3 0 0 0 0 1 1", "5 0 0 0 1"]);
    let (_, lines) = listed((&[7, 7, 7, 7, 7, 7, 8, 7, 7], 3, 3), (&[5], 1, 1), 3);
    assert_eq!(lines, ["3 0 0 0 0 2 0", "5 0 0 0 1"]);
}

/// Rows and columns are both divided: 1 / 2 at scale 2 is 1 1 / 1 1 / 2 2 / 2 2, and 1 2 / 2 1 is 1 1 2 2 twice and
/// then 2 2 1 1 twice.
#[test]
fn every_cell_is_drawn_as_a_square() {
    let tall = [4, 4, 4, 4, 9, 9, 9, 9];
    let (_, lines) = listed((&tall, 4, 2), (&[1, 2], 2, 1), 2);
    assert_eq!(lines, ["1 0 0", "2 1 4", "2 2 9", "5 0 1 0 0"]);
    let checks = [4, 4, 9, 9, 4, 4, 9, 9, 9, 9, 4, 4, 9, 9, 4, 4];
    let (_, lines) = listed((&checks, 4, 4), (&[1, 2, 2, 1], 2, 2), 2);
    assert_eq!(lines, ["1 0 0", "2 1 4", "2 2 9", "5 0 1 0 0"]);
    // 1 2 / 1 2 is 1 1 2 2 four times.
    let (_, lines) = listed((&checks, 4, 4), (&[1, 2, 1, 2], 2, 2), 2);
    assert_eq!(lines, ["3 0 0 0 0 2 0", "5 0 0 0 1"]);
}

#[test]
fn scale_1_is_the_search() {
    let mut lent = Lent::of(6, 3, 3, 23);
    let totals = search_scaled(&TEXT, 2, 3, &PATTERN, 2, 2, 1, lent.lend());
    assert_eq!(totals, Ok(TOTALS));
    crate::assert_first_draft(&lent);
    assert_eq!(lent.listing[..21], LISTING);
}

/// The largest scale is 2: two rows would do for it, and five columns too, but not for 3.
#[test]
fn scales_that_do_not_fit_are_refused_by_17() {
    for scale in [0, 3, 4, 5, 127, 128, 255, 256, 257, usize::MAX] {
        assert_eq!(coarse_refusal(scale), UNFIT, "scale {scale}");
    }
    assert_eq!(UNFIT.refusal().number(), 17);
    assert_eq!(UNFIT.to_string(), "refused 17");
}

/// Scales whose product with a side, cut to 64, 32, 16 or 8 bits, would be a side that fits.
#[test]
fn no_product_wraps_around() {
    let halves = 1 << 63;
    for scale in [
        halves,
        halves + 1,
        halves + 2,
        (1 << 32) + 2,
        65_536 + 2,
        256 + 2,
    ] {
        assert_eq!(coarse_refusal(scale), UNFIT, "scale {scale}");
    }
    // Three times this number is 1 above 2 to the 64th.
    let third = usize::MAX / 3 * 2 + 1;
    assert_eq!(third.wrapping_mul(3), 1);
    let mut lent = Lent::of(99, 99, 99, 99);
    let answer = search_scaled(&[5; 36], 6, 6, &[1; 9], 3, 3, third, lent.lend());
    assert_eq!(answer, Err(UNFIT));
    assert_eq!(lent, Lent::of(99, 99, 99, 99));
}

/// The height alone, or the width alone, does not fit.
#[test]
fn both_sides_have_to_fit() {
    for (rows, columns, height, width, scale) in [
        (2, 6, 1, 2, 3),
        (6, 5, 1, 2, 3),
        (1, 6, 1, 2, 2),
        (6, 1, 2, 1, 2),
        (4, 3, 2, 2, 2),
        (3, 4, 2, 2, 2),
        // The pattern itself is larger than the text: not 4.
        (1, 6, 2, 2, 1),
        (6, 1, 2, 2, 1),
    ] {
        let (text, pattern) = (vec![5; rows * columns], vec![1; height * width]);
        let mut lent = Lent::of(99, 99, 99, 999);
        let buffers = lent.lend();
        let answer = search_scaled(
            &text, rows, columns, &pattern, height, width, scale, buffers,
        );
        assert_eq!(answer, Err(UNFIT), "{height} by {width} at scale {scale}");
        assert_eq!(lent, Lent::of(99, 99, 99, 999));
    }
}

/// One symbol at scale 255 is the whole text.
#[test]
fn a_scale_of_255_is_accepted() {
    let mut text = vec![5; 255 * 255];
    let (totals, lines) = listed((&text, 255, 255), (&[9], 1, 1), 255);
    assert_eq!((totals.found, totals.refused), (1, 0));
    assert_eq!(lines, ["1 0 0", "2 9 5", "5 0 1 0 0"]);
    // The last cell alone spoils it.
    text[255 * 255 - 1] = 6;
    let (totals, lines) = listed((&text, 255, 255), (&[9], 1, 1), 255);
    assert_eq!((totals.found, totals.refused), (0, 1));
    assert_eq!(lines, ["3 0 0 0 0 254 254", "5 0 0 0 1"]);
}

/// The buffers have room, so that nothing else is wrong. Sides are the pattern's own: 2 comes before 17.
#[test]
fn sides_of_0_and_256_are_refused_at_any_scale() {
    for [rows, columns, height, width] in bad_sides() {
        let (text, pattern) = (vec![5; rows * columns], vec![5; height * width]);
        for scale in [0, 1, 2, 256, usize::MAX] {
            let mut lent = Lent::of(256, 256, 256, 4096);
            let buffers = lent.lend();
            let answer = search_scaled(
                &text, rows, columns, &pattern, height, width, scale, buffers,
            );
            assert_eq!(answer, Err(SearchRefusal::Refused(Refusal::SideRange)));
            assert_eq!(lent, Lent::of(256, 256, 256, 4096));
        }
    }
}

#[test]
fn a_listing_at_a_scale_into_20_bytes_needs_21() {
    let mut lent = Lent::of(8, 2, 2, 20);
    let answer = search_scaled(&COARSE, 2, 5, &MOTIF, 1, 2, 2, lent.lend());
    let short = SearchRefusal::ListingBufferShort { needed: 21 };
    assert_eq!(answer, Err(short));
    // All but the listing is as after an accepted search.
    assert_eq!(lent.links, [0; 8]);
    assert_eq!(
        (&lent.counts[..], &lent.flags[..]),
        (&[2, 2][..], &[1, 0][..])
    );
    assert_eq!(lent.listing, [NOISE; 20]);
}

/// The coarse draft so that it earns just these refusals, with the number and the totals; a refusal but 11 changes
/// nothing.
fn earning(numbers: &[u8]) -> (u8, [usize; 3]) {
    let has = |number: u8| numbers.contains(&number);
    let text = &COARSE[..if has(3) { 9 } else { 10 }];
    // With 256 rows the cells are wrong as well, but 2 comes first.
    let rows = if has(2) { 256 } else { 2 };
    let scale = if has(17) { 3 } else { 2 };
    let mut lent = Lent::of(
        if has(9) { 7 } else { 8 },
        2,
        if has(10) { 1 } else { 2 },
        if has(11) { 20 } else { 21 },
    );
    let before = lent.clone();
    let mut totals = [usize::from(NOISE); 3];
    let outcome = search_scaled_into(text, rows, 5, &MOTIF, 1, 2, scale, lent.lend(), &mut totals);
    let number = outcome.map_or_else(Refusal::number, |()| 0);
    assert!([0, 11].contains(&number) || lent == before);
    (number, totals)
}

/// All sets of refusals: the first in the order is given.
#[test]
fn a_search_at_a_scale_refuses_in_order() {
    let order = [2, 3, 17, 9, 10, 11];
    let untouched = usize::from(NOISE);
    for set in 0..1 << order.len() {
        let earned = |place: &usize| set >> place & 1 == 1;
        let numbers: Vec<u8> = (0..order.len())
            .filter(earned)
            .map(|at| order[at])
            .collect();
        let expected = match numbers.first() {
            None => (0, [1, 1, 21]),
            Some(11) => (11, [untouched, untouched, 21]),
            Some(&first) => (first, [untouched; 3]),
        };
        assert_eq!(earning(&numbers), expected, "{numbers:?}");
    }
}

/// Four links are enough for the pattern as it is, eight for the enlarged one, which has two windows of the pattern's
/// eight.
#[test]
fn room_is_asked_for_the_enlarged_pattern() {
    let number = |lent: &mut Lent| {
        let answer = search_scaled(&COARSE, 2, 5, &MOTIF, 1, 2, 2, lent.lend());
        answer.map_or_else(|why| why.refusal().number(), |_| 0)
    };
    assert_eq!(number(&mut Lent::of(4, 2, 2, 21)), 9);
    assert_eq!(number(&mut Lent::of(7, 2, 2, 21)), 9);
    assert_eq!(number(&mut Lent::of(8, 1, 2, 21)), 10);
    assert_eq!(number(&mut Lent::of(8, 2, 1, 21)), 10);
    assert_eq!(number(&mut Lent::of(8, 2, 2, 21)), 0);
}
