//! "Checking" by brute force: for each record that is due in turn, every condition is looked at on the cells
//! themselves.

use crate::listing::first_record;
use crate::{cells, input_condition, symbol_set, Given};

/// A refusal's number, and the place that 6 and 7 return beside it.
type Refused = (u8, Option<usize>);

/// "Accepted, it returns found and refused."
pub fn check(
    text: &[u8],
    rows: usize,
    columns: usize,
    pattern: &[u8],
    height: usize,
    width: usize,
    listing: &[u8],
) -> Result<(usize, usize), Refused> {
    let (number, refused) = input_condition(Given::of(text, rows, columns, pattern, height, width));
    if refused {
        return Err((number, None));
    }

    let places = places_by_symbol(pattern);
    let (mut found, mut refused) = (0, 0);
    let mut walk = Walk { listing, at: 0 };
    // "It wants for each window in order a kind 1, 3 or 4."
    for row in 0..=rows - height {
        for column in 0..=columns - width {
            let window = cells(text, columns, row, column, height, width);
            let record = walk.next(&[1, 3, 4], |record| {
                let names_it = [record[1], record[2]].map(usize::from) == [row, column];
                names_it && (record[0] == 1 || is_clash(pattern, height, width, &window, record))
            })?;
            if record[0] != 1 {
                refused += 1;
                continue;
            }
            found += 1;
            // "After kind 1 exactly d pairs": one for each of the motif's numbers, rising.
            let mut given = Vec::new();
            for (symbol, places) in &places {
                let pair = walk.next(&[2], |pair| {
                    let everywhere = places.iter().all(|&place| window[place] == pair[2]);
                    pair[1] == *symbol && everywhere && !given.contains(&pair[2])
                })?;
                given.push(pair[2]);
            }
        }
    }
    // "After the last window kind 5, then the end."
    walk.next(&[5], |record| {
        let number = |high: u8, low: u8| 256 * usize::from(high) + usize::from(low);
        let said = [(record[1], record[2]), (record[3], record[4])];
        said.map(|(high, low)| number(high, low)) == [found, refused]
    })?;
    if walk.at != listing.len() {
        return Err((6, Some(walk.at)));
    }
    Ok((found, refused))
}

/// The motif's numbers, rising, each with its cells: their places in the motif, row by row.
fn places_by_symbol(pattern: &[u8]) -> Vec<(u8, Vec<usize>)> {
    let places = |symbol: u8| (0..pattern.len()).filter(move |&place| pattern[place] == symbol);
    symbol_set(pattern)
        .into_iter()
        .map(|symbol| (symbol, places(symbol).collect()))
        .collect()
}

/// Whether a record of kind 3 or 4 names two cells of the motif, the "earlier before later" and "alike as the kind
/// says".
fn is_clash(pattern: &[u8], height: usize, width: usize, window: &[u8], record: &[u8]) -> bool {
    let earlier = (usize::from(record[3]), usize::from(record[4]));
    let later = (usize::from(record[5]), usize::from(record[6]));
    if [earlier, later]
        .iter()
        .any(|&(row, column)| row >= height || column >= width)
    {
        return false;
    }
    // "Cells are in row-by-row order": by row, and in a row by column.
    if earlier >= later {
        return false;
    }
    let place = |(row, column): (usize, usize)| row * width + column;
    let alike = |side: &[u8]| side[place(earlier)] == side[place(later)];
    match record[0] {
        3 => alike(pattern) && !alike(window),
        _ => alike(window) && !alike(pattern),
    }
}

/// A listing, and the place of the record that comes next.
struct Walk<'a> {
    listing: &'a [u8],
    at: usize,
}

impl<'a> Walk<'a> {
    /// The next record, if it is whole, has a kind that is due and is true: "another kind, a missing or cut record ..
    /// is 6", and "for a record of right form, 7 is" what is false. "6 and 7 from the check return the place of the
    /// first byte of the first bad record, or the listing's length where a record is missing."
    fn next(&mut self, due: &[u8], is_true: impl Fn(&[u8]) -> bool) -> Result<&'a [u8], Refused> {
        let place = Some(self.at);
        match first_record(&self.listing[self.at..]) {
            Some(record) if due.contains(&record[0]) => {
                if !is_true(record) {
                    return Err((7, place));
                }
                self.at += record.len();
                Ok(record)
            }
            _ => Err((6, place)),
        }
    }
}

#[cfg(test)]
mod tests {
    use super::*;
    use crate::{search, Buffers};

    /// The first draft's text (sheet), 2 by 3, and its pattern (motif), 2 by 2.
    const TEXT: [u8; 6] = [7, 7, 3, 3, 7, 7];
    const PATTERN: [u8; 4] = [1, 1, 2, 1];

    /// The first draft's listing: `1 0 0`, `2 1 7`, `2 2 3`, `3 0 1 0 0 0 1`, `5 0 1 0 1`.
    const LISTING: [u8; 21] = [
        1, 0, 0, 2, 1, 7, 2, 2, 3, 3, 0, 1, 0, 0, 0, 1, 5, 0, 1, 0, 1,
    ];

    /// The check of the first draft's listing with other bytes from this place on.
    fn with(place: usize, bytes: &[u8]) -> Result<(usize, usize), Refused> {
        let mut listing = LISTING;
        listing[place..place + bytes.len()].copy_from_slice(bytes);
        check(&TEXT, 2, 3, &PATTERN, 2, 2, &listing)
    }

    #[test]
    fn check_of_the_first_draft() {
        let first = |listing: &[u8]| check(&TEXT, 2, 3, &PATTERN, 2, 2, listing);
        assert_eq!(first(&LISTING), Ok((1, 1)));
        assert_eq!(with(3, &[2, 1, 3]), Err((7, Some(3))));
        assert_eq!(first(&[]), Err((6, Some(0))));
        assert_eq!(first(&[&LISTING[..], &[5]].concat()), Err((6, Some(21))));
        // A missing and a cut record.
        assert_eq!(first(&LISTING[..9]), Err((6, Some(9))));
        assert_eq!(first(&LISTING[..20]), Err((6, Some(16))));
    }

    #[test]
    fn other_kinds() {
        for (place, kind) in [
            (0, 2),
            (0, 5),
            (3, 1),
            (6, 3),
            (9, 2),
            (9, 5),
            (16, 1),
            (9, 6),
        ] {
            assert_eq!(with(place, &[kind]), Err((6, Some(place))));
        }
    }

    #[test]
    fn false_records() {
        // Another window; another motif number; another sheet number; other counts.
        assert_eq!(with(0, &[1, 0, 1]), Err((7, Some(0))));
        assert_eq!(with(9, &[3, 1, 1]), Err((7, Some(9))));
        assert_eq!(with(3, &[2, 2, 7]), Err((7, Some(3))));
        assert_eq!(with(6, &[2, 2, 7]), Err((7, Some(6))));
        assert_eq!(with(16, &[5, 0, 2, 0, 0]), Err((7, Some(16))));
        // A sheet number given already.
        let twice = [1, 0, 0, 2, 1, 4, 2, 2, 4, 5, 0, 1, 0, 0];
        assert_eq!(
            check(&[4, 4], 1, 2, &[1, 2], 1, 2, &twice),
            Err((7, Some(6)))
        );
    }

    #[test]
    fn true_and_false_clashes() {
        // 7 3 / 7 7 under 1 1 / 2 1. "Any true clash will do."
        for clash in [[3, 0, 1, 0, 1, 1, 1], [4, 0, 1, 0, 0, 1, 0]] {
            assert_eq!(with(9, &clash), Ok((1, 1)));
        }
        // Not alike as the kind says; not earlier before later; outside the motif.
        for clash in [
            [4, 0, 1, 0, 1, 1, 1],
            [3, 0, 1, 0, 0, 1, 1],
            [4, 0, 1, 0, 1, 1, 0],
            [3, 0, 1, 1, 1, 0, 1],
            [3, 0, 1, 0, 1, 0, 1],
            [3, 0, 1, 0, 1, 0, 3],
            [3, 0, 1, 0, 1, 2, 0],
        ] {
            assert_eq!(with(9, &clash), Err((7, Some(9))));
        }
    }

    /// Every list of that many symbols from 0, 1 and 2.
    fn lists(cells: usize) -> Vec<Vec<u8>> {
        let digit = |number: usize, place: usize| (number / 3usize.pow(place as u32) % 3) as u8;
        (0..3usize.pow(cells as u32))
            .map(|number| (0..cells).map(|place| digit(number, place)).collect())
            .collect()
    }

    /// What the search lists is accepted, whatever the text and the pattern, and with another count it is not.
    #[test]
    fn listings_of_the_search() {
        for (rows, columns, height, width) in [(1, 4, 1, 2), (2, 3, 2, 1), (2, 2, 2, 2)] {
            for text in lists(rows * columns) {
                for pattern in lists(height * width) {
                    let lent = Buffers {
                        links: vec![0; 6],
                        counts: vec![0; 3],
                        flags: vec![0; 3],
                        listing: vec![0; 99],
                    };
                    let (_, returned, mut after) =
                        search(&text, rows, columns, &pattern, height, width, &lent);
                    after.listing.truncate(returned[2]);
                    let checked = |listing: &[u8]| {
                        check(&text, rows, columns, &pattern, height, width, listing)
                    };
                    assert_eq!(checked(&after.listing), Ok((returned[0], returned[1])));
                    let closing = returned[2] - 5;
                    after.listing[closing + 2] += 1;
                    assert_eq!(checked(&after.listing), Err((7, Some(closing))));
                }
            }
        }
    }

    #[test]
    fn refused_in_order() {
        let number = |cells: usize, rows, pattern_cells: usize, height| {
            let pattern = &[1; 6][..pattern_cells];
            check(&TEXT[..cells], rows, 3, pattern, height, 2, &[])
        };
        assert_eq!(number(5, 0, 5, 3), Err((2, None)));
        assert_eq!(number(5, 2, 6, usize::MAX), Err((2, None)));
        assert_eq!(number(5, 2, 6, 3), Err((3, None)));
        assert_eq!(number(6, 2, 5, 3), Err((3, None)));
        assert_eq!(number(6, 2, 6, 3), Err((4, None)));
        assert_eq!(number(6, 2, 4, 2), Err((6, Some(0))));
    }
}
