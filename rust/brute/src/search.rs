//! "Search and listing" by brute force: the one-window question is asked of every window, and its answers are written
//! down.

use crate::compare::answer_at;
use crate::{distinct_counts, symbol_set};
use crate::{first_refusal, input_condition, product, windows, with_first, Given};

/// "The search is lent links, tallies, marks and listing."
#[derive(Clone, Debug, PartialEq, Eq)]
pub struct Buffers {
    pub links: Vec<u16>,
    pub counts: Vec<u16>,
    pub flags: Vec<u8>,
    pub listing: Vec<u8>,
}

/// What the search finds and writes.
pub(crate) struct Written {
    /// "Marks then hold 1 for found and 0 for refused, one byte a window."
    pub flags: Vec<u8>,
    pub found: usize,
    pub refused: usize,
    pub listing: Vec<u8>,
}

/// "The search lists this answer for each window": of a sheet and a motif that are not refused by 2, 3 or 4.
pub(crate) fn written(given: Given) -> Written {
    let width = given.width;
    let mut flags = Vec::new();
    let mut listing = Vec::new();
    for row in 0..=given.rows - given.height {
        for column in 0..=given.columns - width {
            let (_, [kind, earlier, later], [forward, _]) = answer_at(given, row, column);
            if kind == 0 {
                flags.push(1);
                listing.extend([1, row as u8, column as u8]);
                for a in symbol_set(given.pattern) {
                    listing.extend([2, a, forward[usize::from(a)] as u8]);
                }
            } else {
                flags.push(0);
                listing.extend([kind as u8, row as u8, column as u8]);
                for cell in [earlier, later] {
                    listing.extend([(cell / width) as u8, (cell % width) as u8]);
                }
            }
        }
    }
    let found = flags.iter().filter(|&&flag| flag == 1).count();
    let refused = flags.len() - found;
    listing.push(5);
    for total in [found, refused] {
        listing.extend([(total / 256) as u8, (total % 256) as u8]);
    }
    Written {
        flags,
        found,
        refused,
        listing,
    }
}

/// The number of the refusal before any window is looked at, or 0: 2, 3, 4, 9, 10.
pub(crate) fn lent_refusal(given: Given, lent: &Buffers) -> u8 {
    let windows = windows(given.rows, given.columns, given.height, given.width);
    first_refusal(&[
        input_condition(given),
        (
            9,
            (lent.links.len() as u128) < product(given.rows, given.width),
        ),
        (
            10,
            (lent.flags.len() as i128) < windows || (lent.counts.len() as i128) < windows,
        ),
    ])
}

/// The buffers with all filled but the listing, which stays.
pub(crate) fn filled(given: Given, flags: Vec<u8>, lent: &Buffers) -> Buffers {
    let [rows, columns, height, width] = [given.rows, given.columns, given.height, given.width];
    Buffers {
        // "The first R × c links are 0."
        links: with_first(vec![0; rows * width], &lent.links),
        // "Tallies are as the tally operation leaves them."
        counts: distinct_counts(given.text, rows, columns, height, width, &lent.counts).1,
        flags: with_first(flags, &lent.flags),
        listing: lent.listing.clone(),
    }
}

/// The outcome's number; what is returned beside it, which is "a, b and that length" of an accepted search, "the length
/// needed" beside 11 and nothing beside another refusal; and the buffers afterwards.
pub fn search(
    text: &[u8],
    rows: usize,
    columns: usize,
    pattern: &[u8],
    height: usize,
    width: usize,
    lent: &Buffers,
) -> (u8, Vec<usize>, Buffers) {
    search_in(Given::of(text, rows, columns, pattern, height, width), lent)
}

/// The search of a sheet and a motif as one value.
pub(crate) fn search_in(given: Given, lent: &Buffers) -> (u8, Vec<usize>, Buffers) {
    let number = lent_refusal(given, lent);
    if number != 0 {
        return (number, Vec::new(), lent.clone());
    }
    let written = written(given);
    let length = written.listing.len();
    // "11 has marks, tallies and links as after an accepted search, leaves the listing buffer untouched."
    let mut after = filled(given, written.flags, lent);
    if lent.listing.len() < length {
        return (11, vec![length], after);
    }
    after.listing = with_first(written.listing, &lent.listing);
    (0, vec![written.found, written.refused, length], after)
}

#[cfg(test)]
pub(crate) mod tests {
    use super::*;

    /// The first draft's text (sheet), 2 by 3, and its pattern (motif), 2 by 2.
    const TEXT: [u8; 6] = [7, 7, 3, 3, 7, 7];
    const PATTERN: [u8; 4] = [1, 1, 2, 1];

    /// Buffers of these lengths that hold 9s.
    pub fn nines(links: usize, counts: usize, flags: usize, listing: usize) -> Buffers {
        Buffers {
            links: vec![9; links],
            counts: vec![9; counts],
            flags: vec![9; flags],
            listing: vec![9; listing],
        }
    }

    #[test]
    fn first_draft() {
        let (number, returned, after) = search(&TEXT, 2, 3, &PATTERN, 2, 2, &nines(5, 3, 3, 22));
        assert_eq!((number, returned), (0, vec![1, 1, 21]));
        assert_eq!(after.links, [0, 0, 0, 0, 9]);
        assert_eq!(after.counts, [2, 2, 9]);
        assert_eq!(after.flags, [1, 0, 9]);
        assert_eq!(after.listing[..9], [1, 0, 0, 2, 1, 7, 2, 2, 3]);
        assert_eq!(after.listing[9..16], [3, 0, 1, 0, 0, 0, 1]);
        assert_eq!(after.listing[16..], [5, 0, 1, 0, 1, 9]);
    }

    #[test]
    fn a_listing_buffer_of_20_bytes() {
        let (number, returned, after) = search(&TEXT, 2, 3, &PATTERN, 2, 2, &nines(4, 2, 2, 20));
        assert_eq!((number, returned), (11, vec![21]));
        assert_eq!(after.links, [0; 4]);
        assert_eq!(after.counts, [2, 2]);
        assert_eq!(after.flags, [1, 0]);
        assert_eq!(after.listing, [9; 20]);
    }

    #[test]
    fn one_row_drafts() {
        let listing = |text: &[u8], pattern: &[u8]| {
            let (number, returned, after) = search(
                text,
                1,
                text.len(),
                pattern,
                1,
                pattern.len(),
                &nines(3, 1, 1, 99),
            );
            assert_eq!(number, 0);
            after.listing[..returned[2]].to_vec()
        };
        assert_eq!(listing(&[5], &[5]), [1, 0, 0, 2, 5, 5, 5, 0, 1, 0, 0]);
        let refused = |clash: [u8; 7]| [&clash[..], &[5, 0, 0, 0, 1]].concat();
        assert_eq!(listing(&[4, 4], &[1, 2]), refused([4, 0, 0, 0, 0, 0, 1]));
        assert_eq!(listing(&[4, 5], &[1, 1]), refused([3, 0, 0, 0, 0, 0, 1]));
        assert_eq!(
            listing(&[4, 5, 5], &[1, 2, 1]),
            refused([3, 0, 0, 0, 0, 0, 2])
        );
        assert_eq!(
            listing(&[4, 5, 4], &[1, 2, 2]),
            refused([4, 0, 0, 0, 0, 0, 2])
        );
        assert_eq!(
            listing(&[2, 1], &[1, 2]),
            [1, 0, 0, 2, 1, 2, 2, 2, 1, 5, 0, 1, 0, 0]
        );
    }

    #[test]
    fn refused_in_order() {
        let number = |cells: usize, rows, pattern_cells: usize, height, lent: Buffers| {
            let pattern = &[1; 6][..pattern_cells];
            let (number, returned, after) =
                search(&TEXT[..cells], rows, 3, pattern, height, 2, &lent);
            assert_eq!(returned, [], "a refusal returns its number alone");
            assert_eq!(after, lent, "a refusal changes no buffer");
            number
        };
        assert_eq!(number(5, 0, 5, 3, nines(3, 1, 1, 0)), 2);
        assert_eq!(number(5, 2, 6, usize::MAX, nines(3, 1, 1, 0)), 2);
        assert_eq!(number(5, 2, 6, 3, nines(3, 1, 1, 0)), 3);
        assert_eq!(number(6, 2, 5, 3, nines(3, 1, 1, 0)), 3);
        assert_eq!(number(6, 2, 6, 3, nines(3, 1, 1, 0)), 4);
        assert_eq!(number(6, 2, 4, 2, nines(3, 1, 1, 0)), 9);
        assert_eq!(number(6, 2, 4, 2, nines(4, 1, 2, 0)), 10);
        assert_eq!(number(6, 2, 4, 2, nines(4, 2, 1, 0)), 10);
    }
}
