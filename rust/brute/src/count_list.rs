//! Document 02's R-1, "Count first, list later", by brute force: "two operations, one that fills marks and returns
//! found, refused and length, and one that writes the listing from marks".

use crate::search::{filled, lent_refusal, written, Buffers};
use crate::{first_refusal, input_condition, symbol_set, windows, with_first, Given};

/// The first operation: the outcome's number; found, refused and length, or nothing beside a refusal; and the buffers
/// afterwards. It is lent no listing, and so leaves that of the buffers as it is.
///
/// "The search of document 01 is then the first followed by the second": what the search is lent besides the listing
/// is filled here, and refused before the listing's room is asked for.
pub fn count(given: Given, lent: &Buffers) -> (u8, Vec<usize>, Buffers) {
    let number = lent_refusal(given, lent);
    if number != 0 {
        return (number, Vec::new(), lent.clone());
    }
    let written = written(given);
    // "With a found, b refused and d numbers in the motif the length is a × (3 + 3d) + 7b + 5."
    let (a, b, d) = (
        written.found,
        written.refused,
        symbol_set(given.pattern).len(),
    );
    let length = a * (3 + 3 * d) + 7 * b + 5;
    (0, vec![a, b, length], filled(given, written.flags, lent))
}

/// The second operation, "lent marks and listing alone": the outcome's number; what is returned beside it, "the same
/// three numbers", the length needed beside 11, and nothing beside another refusal; and the listing buffer afterwards.
pub fn list(given: Given, flags: &[u8], listing: &[u8]) -> (u8, Vec<usize>, Vec<u8>) {
    let windows = windows(given.rows, given.columns, given.height, given.width);
    let number = first_refusal(&[
        input_condition(given),
        (10, (flags.len() as i128) < windows),
    ]);
    if number != 0 {
        return (number, Vec::new(), listing.to_vec());
    }
    let written = written(given);
    let length = written.listing.len();
    let windows = written.flags.len();
    // "It refuses by 16, after 10 and before 11, marks that differ from the truth for some window."
    let number = first_refusal(&[
        (
            16,
            (0..windows).any(|window| flags[window] != written.flags[window]),
        ),
        (11, listing.len() < length),
    ]);
    match number {
        0 => {
            let returned = vec![written.found, written.refused, length];
            (0, returned, with_first(written.listing, listing))
        }
        11 => (11, vec![length], listing.to_vec()),
        _ => (number, Vec::new(), listing.to_vec()),
    }
}

#[cfg(test)]
mod tests {
    use super::*;
    use crate::search::tests::nines;

    /// The first draft's text (sheet), 2 by 3, and its pattern (motif), 2 by 2.
    const FIRST_DRAFT: Given = Given {
        text: &[7, 7, 3, 3, 7, 7],
        rows: 2,
        columns: 3,
        pattern: &[1, 1, 2, 1],
        height: 2,
        width: 2,
    };

    #[test]
    fn count_of_the_first_draft() {
        let (number, returned, after) = count(FIRST_DRAFT, &nines(5, 3, 3, 1));
        assert_eq!((number, returned), (0, vec![1, 1, 21]));
        let counted = (after.links, after.counts, after.flags, after.listing);
        let expected = (vec![0, 0, 0, 0, 9], vec![2, 2, 9], vec![1, 0, 9], vec![9]);
        assert_eq!(counted, expected);
    }

    #[test]
    fn list_of_the_first_draft() {
        let listed = |flags: &[u8], room: usize| {
            let noise = vec![9; room];
            let (number, returned, after) = list(FIRST_DRAFT, flags, &noise);
            assert!(number == 0 || after == noise, "a refusal changes no buffer");
            (number, returned, after)
        };
        let (number, returned, after) = listed(&[1, 0, 7], 22);
        assert_eq!((number, returned), (0, vec![1, 1, 21]));
        assert_eq!(after[..9], [1, 0, 0, 2, 1, 7, 2, 2, 3]);
        assert_eq!(after[9..], [3, 0, 1, 0, 0, 0, 1, 5, 0, 1, 0, 1, 9]);
        assert_eq!(listed(&[1, 0], 20).0, 11);
        assert_eq!(listed(&[1, 0], 20).1, [21]);
        for flags in [[0, 0], [1, 1], [0, 1], [2, 0], [255, 0], [1, 2], [1, 255]] {
            for room in [0, 20, 21] {
                assert_eq!(listed(&flags, room).0, 16);
                assert_eq!(listed(&flags, room).1, []);
            }
        }
    }

    /// The first draft with other rows and another height, and so many cells of its text and of a constant pattern.
    fn spoilt(cells: usize, rows: usize, pattern_cells: usize, height: usize) -> Given<'static> {
        Given {
            text: &FIRST_DRAFT.text[..cells],
            rows,
            pattern: &[1; 6][..pattern_cells],
            height,
            ..FIRST_DRAFT
        }
    }

    #[test]
    fn list_is_refused_in_order() {
        let number = |given, flags: &[u8]| list(given, flags, &[]).0;
        assert_eq!(number(spoilt(5, 0, 5, 3), &[2]), 2);
        assert_eq!(number(spoilt(5, 2, 6, usize::MAX), &[2]), 2);
        assert_eq!(number(spoilt(5, 2, 6, 3), &[2]), 3);
        assert_eq!(number(spoilt(6, 2, 5, 3), &[2]), 3);
        assert_eq!(number(spoilt(6, 2, 6, 3), &[2]), 4);
        assert_eq!(number(spoilt(6, 2, 4, 2), &[2]), 10);
        assert_eq!(number(spoilt(6, 2, 4, 2), &[2, 0]), 16);
        assert_eq!(number(spoilt(6, 2, 4, 2), &[0, 0]), 11);
    }

    #[test]
    fn count_is_refused_in_order() {
        let number = |given, lent: Buffers| {
            let (number, returned, after) = count(given, &lent);
            assert!(number == 0 || (returned.is_empty() && after == lent));
            number
        };
        assert_eq!(number(spoilt(5, 0, 5, 3), nines(3, 1, 1, 0)), 2);
        assert_eq!(number(spoilt(5, 2, 6, 3), nines(3, 1, 1, 0)), 3);
        assert_eq!(number(spoilt(6, 2, 6, 3), nines(3, 1, 1, 0)), 4);
        assert_eq!(number(spoilt(6, 2, 4, 2), nines(3, 1, 1, 0)), 9);
        assert_eq!(number(spoilt(6, 2, 4, 2), nines(4, 1, 2, 0)), 10);
        assert_eq!(number(spoilt(6, 2, 4, 2), nines(4, 2, 1, 0)), 10);
        assert_eq!(number(spoilt(6, 2, 4, 2), nines(4, 2, 2, 0)), 0);
    }
}
