//! Document 02's R-2, "Coarse cloth", by brute force: "each motif square is drafted as k by k squares". Here the
//! enlargement is stored, and searched for.

use crate::search::{filled, search_in, written, Buffers};
use crate::{cells_condition, first_refusal, product, windows, Given};

/// The motif with each square "drafted as k by k squares".
fn enlarged(pattern: &[u8], width: usize, k: usize) -> Vec<u8> {
    let mut cells = Vec::new();
    for row in pattern.chunks(width) {
        for _ in 0..k {
            for &symbol in row {
                cells.extend(vec![symbol; k]);
            }
        }
    }
    cells
}

/// Whether the motif at this k fits into the sheet.
fn fits(given: Given, k: usize) -> bool {
    product(k, given.height) <= given.rows as u128
        && product(k, given.width) <= given.columns as u128
}

/// "It refuses by 17, after 3 and in place of 4, a k of 0 or one at which the motif doesn't fit."
fn scale_refusal(given: Given, k: usize) -> u8 {
    first_refusal(&[cells_condition(given), (17, k == 0 || !fits(given, k))])
}

/// A sheet with an enlarged motif, whose cells these are.
fn at_scale<'a>(given: Given<'a>, cells: &'a [u8], k: usize) -> Given<'a> {
    Given {
        pattern: cells,
        height: k * given.height,
        width: k * given.width,
        ..given
    }
}

/// "The search at a given k: the listing is that of the enlarged motif, cells named in it." The outcome's number; what
/// is returned beside it, as for the search; and the buffers afterwards.
pub fn search_scaled(given: Given, k: usize, lent: &Buffers) -> (u8, Vec<usize>, Buffers) {
    let number = scale_refusal(given, k);
    if number != 0 {
        return (number, Vec::new(), lent.clone());
    }
    let cells = enlarged(given.pattern, given.width, k);
    search_in(at_scale(given, &cells, k), lent)
}

/// The largest k that fits, of sides that are not refused; 0 where none does.
fn largest_scale(given: Given) -> usize {
    (1..=255).take_while(|&k| fits(given, k)).count()
}

/// "It judges 9 at the largest k, 10 at k = 1": the number of the refusal before any window is looked at, or 0.
fn scales_refusal(given: Given, lent: &Buffers) -> u8 {
    // "The second operation gives it when no k fits": then k = 1 does not.
    let number = scale_refusal(given, 1);
    if number != 0 {
        return number;
    }
    let widest = largest_scale(given) * given.width;
    let windows = windows(given.rows, given.columns, given.height, given.width);
    first_refusal(&[
        (9, (lent.links.len() as u128) < product(given.rows, widest)),
        (
            10,
            (lent.flags.len() as i128) < windows || (lent.counts.len() as i128) < windows,
        ),
    ])
}

/// "A second operation goes through every k that fits, smallest first, with one listing after the other. It returns the
/// sums of found, refused and length." The outcome's number; the three sums, or the sum of the lengths beside 11, or
/// nothing beside another refusal; and the buffers afterwards.
pub fn search_scales(given: Given, lent: &Buffers) -> (u8, Vec<usize>, Buffers) {
    let number = scales_refusal(given, lent);
    if number != 0 {
        return (number, Vec::new(), lent.clone());
    }
    let (mut found, mut refused) = (0, 0);
    let mut listings = Vec::new();
    let mut after = lent.clone();
    for k in 1..=largest_scale(given) {
        let cells = enlarged(given.pattern, given.width, k);
        let given = at_scale(given, &cells, k);
        let written = written(given);
        found += written.found;
        refused += written.refused;
        listings.extend(written.listing);
        // "Each k writes marks and tallies afresh from their start": what it does not reach stays from the k before.
        after = filled(given, written.flags, &after);
    }
    // "And 11 by the total length."
    let length = listings.len();
    if lent.listing.len() < length {
        return (11, vec![length], after);
    }
    after.listing[..length].copy_from_slice(&listings);
    (0, vec![found, refused, length], after)
}

#[cfg(test)]
mod tests {
    use super::*;
    use crate::search::tests::nines;

    #[test]
    fn enlargements() {
        assert_eq!(enlarged(&[1, 2, 3, 4], 2, 1), [1, 2, 3, 4]);
        let twice = [1, 1, 2, 2, 1, 1, 2, 2, 3, 3, 4, 4, 3, 3, 4, 4];
        assert_eq!(enlarged(&[1, 2, 3, 4], 2, 2), twice);
        assert_eq!(enlarged(&[1, 2], 2, 3), [1, 1, 1, 2, 2, 2].repeat(3));
        assert_eq!(enlarged(&[1, 2], 1, 2), [1, 1, 1, 1, 2, 2, 2, 2]);
    }

    /// A sheet of 2 by 5 cells with a motif of 1 by 2, at k = 2.
    const COARSE: Given = Given {
        text: &[7, 7, 3, 3, 3, 7, 7, 3, 3, 4],
        rows: 2,
        columns: 5,
        pattern: &[1, 2],
        height: 1,
        width: 2,
    };

    #[test]
    fn a_coarse_draft() {
        let (number, returned, after) = search_scaled(COARSE, 2, &nines(9, 3, 3, 22));
        assert_eq!((number, returned), (0, vec![1, 1, 21]));
        assert_eq!(after.links, [0, 0, 0, 0, 0, 0, 0, 0, 9]);
        assert_eq!((after.counts, after.flags), (vec![2, 3, 9], vec![1, 0, 9]));
        assert_eq!(after.listing[..9], [1, 0, 0, 2, 1, 7, 2, 2, 3]);
        assert_eq!(after.listing[9..16], [3, 0, 1, 0, 0, 0, 1]);
        assert_eq!(after.listing[16..], [5, 0, 1, 0, 1, 9]);
    }

    /// A sheet of 2 by 2 with one number as its motif: k is 1, and then 2.
    const TWO_SCALES: Given = Given {
        text: &[7, 7, 7, 8],
        rows: 2,
        columns: 2,
        pattern: &[1],
        height: 1,
        width: 1,
    };

    #[test]
    fn two_scales() {
        let (number, returned, after) = search_scales(TWO_SCALES, &nines(5, 5, 5, 42));
        assert_eq!((number, returned), (0, vec![4, 1, 41]));
        assert_eq!(after.links, [0, 0, 0, 0, 9]);
        assert_eq!(after.counts, [2, 1, 1, 1, 9]);
        assert_eq!(after.flags, [0, 1, 1, 1, 9]);
        assert_eq!(after.listing[18..24], [1, 1, 1, 2, 1, 8]);
        assert_eq!(after.listing[24..29], [5, 0, 4, 0, 0]);
        assert_eq!(after.listing[29..36], [3, 0, 0, 0, 0, 1, 1]);
        assert_eq!(after.listing[36..], [5, 0, 0, 0, 1, 9]);

        let (number, returned, short) = search_scales(TWO_SCALES, &nines(5, 5, 5, 40));
        assert_eq!((number, returned), (11, vec![41]));
        assert_eq!(short.listing, [9; 40]);
        let all_but_listing = |after: Buffers| (after.links, after.counts, after.flags);
        assert_eq!(all_but_listing(short), all_but_listing(after));
    }

    #[test]
    fn scales_that_do_not_fit() {
        let number = |given, k| search_scaled(given, k, &nines(0, 0, 0, 0)).0;
        for k in [0, 3, 1 << 63, usize::MAX] {
            assert_eq!(number(COARSE, k), 17);
            assert_eq!(number(TWO_SCALES, k), 17);
        }
        assert_eq!(number(COARSE, 2), 9);
        assert_eq!(number(TWO_SCALES, 2), 9);
        assert_eq!(largest_scale(COARSE), 2);
        let wide = Given {
            pattern: &[1; 6],
            width: 6,
            ..COARSE
        };
        assert_eq!(search_scales(wide, &nines(0, 0, 0, 0)).0, 17);
        assert_eq!(number(wide, 1), 17);
    }

    #[test]
    fn refused_in_order() {
        let both = |given, lent: Buffers| {
            let (number, returned, after) = search_scales(given, &lent);
            assert!(number == 11 || (returned.is_empty() && after == lent));
            [search_scaled(given, 2, &lent).0, number]
        };
        let sides = Given {
            width: 0,
            ..TWO_SCALES
        };
        let cells = Given {
            pattern: &[1; 2],
            ..TWO_SCALES
        };
        assert_eq!(both(sides, nines(0, 0, 0, 0)), [2, 2]);
        assert_eq!(both(cells, nines(0, 0, 0, 0)), [3, 3]);
        // 9 is of 2 × 2 links, also at every k; 10 of one window at k = 2, and of four at every k.
        assert_eq!(both(TWO_SCALES, nines(3, 0, 0, 0)), [9, 9]);
        assert_eq!(both(TWO_SCALES, nines(4, 0, 1, 0)), [10, 10]);
        assert_eq!(both(TWO_SCALES, nines(4, 4, 3, 0)), [11, 10]);
        assert_eq!(both(TWO_SCALES, nines(4, 3, 4, 0)), [11, 10]);
        assert_eq!(both(TWO_SCALES, nines(4, 4, 4, 0)), [11, 11]);
        // 12 bytes are enough for k = 2, and 29 for k = 1.
        assert_eq!(both(TWO_SCALES, nines(4, 4, 4, 40)), [0, 11]);
    }
}
