//! Document 01's drafts and misweaves of the search, of its two halves and of the reader, and drafts at scales, run on
//! the proved code. Every expected value is typed from document 01 or found by hand; none comes from the brute force.

mod counting;
mod listing;
mod reading;
mod scaled;
mod scales;

use colourway::{records, search, search_into, Buffers, Refusal, SearchRefusal, Totals};

/// The first draft's text (sheet), 2 by 3.
const TEXT: [u8; 6] = [7, 7, 3, 3, 7, 7];

/// The first draft's pattern (motif), 2 by 2.
const PATTERN: [u8; 4] = [1, 1, 2, 1];

/// The first draft's output in full.
const LINES: [&str; 5] = ["1 0 0", "2 1 7", "2 2 3", "3 0 1 0 0 0 1", "5 0 1 0 1"];

/// What an accepted search of the first draft returns.
const TOTALS: Totals = Totals {
    found: 1,
    refused: 1,
    length: 21,
};

/// The first draft's listing: the bytes of that output.
const LISTING: [u8; 21] = [
    1, 0, 0, 2, 1, 7, 2, 2, 3, 3, 0, 1, 0, 0, 0, 1, 5, 0, 1, 0, 1,
];

/// What the buffers hold before an operation.
const NOISE: u8 = 0xA5;
const WIDE_NOISE: u16 = 0xA5A5;

/// The buffers of a search, which own what they lend.
#[derive(Clone, Debug, PartialEq)]
struct Lent {
    links: Vec<u16>,
    counts: Vec<u16>,
    flags: Vec<u8>,
    listing: Vec<u8>,
}

impl Lent {
    /// Buffers of noise of these lengths.
    fn of(links: usize, counts: usize, flags: usize, listing: usize) -> Lent {
        Lent {
            links: vec![WIDE_NOISE; links],
            counts: vec![WIDE_NOISE; counts],
            flags: vec![NOISE; flags],
            listing: vec![NOISE; listing],
        }
    }

    fn lend(&mut self) -> Buffers<'_> {
        Buffers {
            links: &mut self.links,
            counts: &mut self.counts,
            flags: &mut self.flags,
            listing: &mut self.listing,
        }
    }
}

/// A text or a pattern with its rows and columns.
type Shaped<'a> = (&'a [u8], usize, usize);

/// A search with room for everything: its totals, and the lines of its listing.
fn listed(text: Shaped, pattern: Shaped) -> (Totals, Vec<String>) {
    let ((text, rows, columns), (pattern, height, width)) = (text, pattern);
    let mut lent = Lent::of(65_025, 65_025, 65_025, 1 << 20);
    let totals = search(text, rows, columns, pattern, height, width, lent.lend());
    let totals = totals.expect("an accepted search");
    (totals, lines(&lent.listing[..totals.length]))
}

/// The records of a listing, as document 01's program prints them.
fn lines(listing: &[u8]) -> Vec<String> {
    records(listing)
        .map(|record| record.expect("a whole record").to_string())
        .collect()
}

/// The lines for a text and a pattern of one row each.
fn one_row(text: &[u8], pattern: &[u8]) -> Vec<String> {
    listed((text, 1, text.len()), (pattern, 1, pattern.len())).1
}

/// Fails unless links, counts and flags are the first draft's, with noise behind them.
fn assert_first_draft(lent: &Lent) {
    assert_eq!(lent.links, [0, 0, 0, 0, WIDE_NOISE, WIDE_NOISE]);
    assert_eq!(lent.counts, [2, 2, WIDE_NOISE]);
    assert_eq!(lent.flags, [1, 0, NOISE]);
}

#[test]
fn the_first_draft() {
    let mut lent = Lent::of(6, 3, 3, 23);
    let totals = search(&TEXT, 2, 3, &PATTERN, 2, 2, lent.lend());
    assert_eq!(totals, Ok(TOTALS));
    assert_first_draft(&lent);
    assert_eq!(lent.listing[..21], LISTING);
    assert_eq!(lent.listing[21..], [NOISE, NOISE]);
    assert_eq!(lines(&lent.listing[..21]), LINES);
}

#[test]
fn one_row_drafts() {
    assert_eq!(one_row(&[5], &[5]), ["1 0 0", "2 5 5", "5 0 1 0 0"]);
    assert_eq!(one_row(&[4, 4], &[1, 2]), ["4 0 0 0 0 0 1", "5 0 0 0 1"]);
    assert_eq!(one_row(&[4, 5], &[1, 1]), ["3 0 0 0 0 0 1", "5 0 0 0 1"]);
    assert_eq!(
        one_row(&[4, 5, 5], &[1, 2, 1]),
        ["3 0 0 0 0 0 2", "5 0 0 0 1"]
    );
    assert_eq!(
        one_row(&[4, 5, 4], &[1, 2, 2]),
        ["4 0 0 0 0 0 2", "5 0 0 0 1"]
    );
    assert_eq!(
        one_row(&[2, 1], &[1, 2]),
        ["1 0 0", "2 1 2", "2 2 1", "5 0 1 0 0"]
    );
}

#[test]
fn a_listing_buffer_of_20_bytes_needs_21() {
    let mut lent = Lent::of(4, 2, 2, 20);
    assert_eq!(
        search(&TEXT, 2, 3, &PATTERN, 2, 2, lent.lend()),
        Err(SearchRefusal::ListingBufferShort { needed: 21 })
    );
    // All but the listing is as after an accepted search.
    assert_eq!(lent.links, [0; 4]);
    assert_eq!(lent.counts, [2, 2]);
    assert_eq!(lent.flags, [1, 0]);
    assert_eq!(lent.listing, [NOISE; 20]);

    lent.listing.push(NOISE);
    let totals = search(&TEXT, 2, 3, &PATTERN, 2, 2, lent.lend());
    assert_eq!(totals.map(|totals| totals.length), Ok(21));
    assert_eq!(lent.listing, LISTING);
}

#[test]
fn sides_of_255_are_accepted() {
    let text = vec![5; 255 * 255];
    let of = |found, refused, length| Totals {
        found,
        refused,
        length,
    };
    // One symbol matches every window of one cell: 65,025 are 254 × 256 + 1.
    let (totals, lines) = listed((&text, 255, 255), (&[9], 1, 1));
    assert_eq!(totals, of(65_025, 0, 65_025 * 6 + 5));
    assert_eq!(lines[..2], ["1 0 0", "2 9 5"]);
    assert_eq!(lines[2 * 65_024..], ["1 254 254", "2 9 5", "5 254 1 0 0"]);

    // Two symbols match none of two cells: 255 × 254 = 64,770 are 253 × 256 + 2.
    let (totals, lines) = listed((&text, 255, 255), (&[1, 2], 1, 2));
    assert_eq!(totals, of(0, 64_770, 64_770 * 7 + 5));
    assert_eq!(lines[0], "4 0 0 0 0 0 1");
    assert_eq!(lines[64_769..], ["4 254 253 0 0 0 1", "5 0 0 253 2"]);

    // A pattern with a side of 255.
    let (totals, lines) = listed((&text, 255, 255), (&[9; 255], 255, 1));
    assert_eq!(totals, of(255, 0, 255 * 6 + 5));
    assert_eq!(lines[2 * 254..], ["1 0 254", "2 9 5", "5 0 255 0 0"]);
}

/// The sides of a text and a pattern that are right but for one, which is 0 or 256.
fn bad_sides() -> impl Iterator<Item = [usize; 4]> {
    let bad_at = |place: usize| {
        [0, 256].map(|bad| std::array::from_fn(|at| if at == place { bad } else { 1 }))
    };
    (0..4).flat_map(bad_at)
}

/// 0 and 256 are refused by 2, whichever side has them. Text and pattern have as many cells as the bad sides ask for,
/// and the buffers room, so that nothing else is wrong.
#[test]
fn sides_of_0_and_256_are_refused() {
    assert_eq!(bad_sides().count(), 8);
    for [rows, columns, height, width] in bad_sides() {
        let text = vec![5; rows * columns];
        let pattern = vec![5; height * width];
        let mut lent = Lent::of(256, 256, 256, 4096);
        let before = lent.clone();
        assert_eq!(
            search(&text, rows, columns, &pattern, height, width, lent.lend()),
            Err(SearchRefusal::Refused(Refusal::SideRange))
        );
        assert_eq!(lent, before);
    }
}

#[test]
fn a_pattern_as_large_as_the_text_has_one_window() {
    let (totals, lines) = listed((&TEXT, 2, 3), (&[1, 1, 0, 0, 1, 1], 2, 3));
    assert_eq!((totals.found, totals.refused), (1, 0));
    assert_eq!(lines, ["1 0 0", "2 0 3", "2 1 7", "5 0 1 0 0"]);

    // The last cell alone spoils it.
    let text = [vec![5; 255 * 255 - 1], vec![6]].concat();
    let (totals, lines) = listed((&text, 255, 255), (&vec![9; 255 * 255], 255, 255));
    assert_eq!((totals.found, totals.refused), (0, 1));
    assert_eq!(lines, ["3 0 0 0 0 254 254", "5 0 0 0 1"]);
}

/// One input that earns every refusal at once, mended step by step, meets them in document 01's order. A refusal but
/// the last changes nothing, the totals included; the last writes the length needed and leaves the other totals.
#[test]
fn refusals_come_in_order() {
    let number = |cells: usize, rows, pattern_cells: usize, height, mut lent: Lent| {
        let before = lent.clone();
        let mut totals = [usize::from(NOISE); 3];
        let outcome = search_into(
            &TEXT[..cells],
            rows,
            3,
            &[1, 1, 2, 1, 2, 1][..pattern_cells],
            height,
            2,
            lent.lend(),
            &mut totals,
        );
        let number = outcome.map_or_else(Refusal::number, |()| 0);
        if ![0, 11].contains(&number) {
            assert_eq!(totals, [usize::from(NOISE); 3]);
            assert_eq!(lent, before);
        }
        (number, totals)
    };
    let untouched = [usize::from(NOISE); 3];
    let needed = [usize::from(NOISE), usize::from(NOISE), 21];
    assert_eq!(number(5, 2, 5, 0, Lent::of(3, 1, 1, 0)), (2, untouched));
    assert_eq!(number(5, 256, 5, 3, Lent::of(3, 1, 1, 0)), (2, untouched));
    assert_eq!(number(5, 2, 5, 3, Lent::of(3, 1, 1, 0)), (3, untouched));
    assert_eq!(number(5, 2, 6, 3, Lent::of(3, 1, 1, 0)), (3, untouched));
    assert_eq!(number(6, 2, 5, 3, Lent::of(3, 1, 1, 0)), (3, untouched));
    assert_eq!(number(6, 2, 6, 3, Lent::of(3, 1, 1, 0)), (4, untouched));
    assert_eq!(number(6, 2, 4, 2, Lent::of(3, 1, 1, 0)), (9, untouched));
    assert_eq!(number(6, 2, 4, 2, Lent::of(4, 1, 1, 0)), (10, untouched));
    assert_eq!(number(6, 2, 4, 2, Lent::of(4, 2, 1, 0)), (10, untouched));
    assert_eq!(number(6, 2, 4, 2, Lent::of(4, 1, 2, 0)), (10, untouched));
    assert_eq!(number(6, 2, 4, 2, Lent::of(4, 2, 2, 0)), (11, needed));
    assert_eq!(number(6, 2, 4, 2, Lent::of(4, 2, 2, 21)), (0, [1, 1, 21]));
}

/// Misweave 1: using a link whose far end lies above the window's top row. The 4 of the second window has another above
/// it.
#[test]
fn what_lies_above_the_window_is_not_looked_at() {
    let (_, lines) = listed((&[4, 4, 5], 3, 1), (&[1, 2], 2, 1));
    assert_eq!(
        lines,
        ["4 0 0 0 0 1 0", "1 1 0", "2 1 4", "2 2 5", "5 0 1 0 1"]
    );
}

/// Misweave 2: linking along the whole row of the text, so that a pair leaves the strip.
#[test]
fn what_lies_beside_the_window_is_not_looked_at() {
    let (_, lines) = listed((&[1, 2, 2, 1], 2, 2), (&[1, 2], 2, 1));
    assert_eq!(
        lines,
        [
            "1 0 0",
            "2 1 1",
            "2 2 2",
            "1 0 1",
            "2 1 2",
            "2 2 1",
            "5 0 2 0 0"
        ]
    );
}

/// Number 0 is a yarn number like any other, and so is 255.
#[test]
fn the_extreme_symbols_are_symbols() {
    assert_eq!(
        one_row(&[255, 0, 255], &[0, 255, 0]),
        ["1 0 0", "2 0 255", "2 255 0", "5 0 1 0 0"]
    );
    assert_eq!(one_row(&[0, 0], &[0, 255]), ["4 0 0 0 0 0 1", "5 0 0 0 1"]);
}

#[test]
fn refusals_of_a_search_have_their_numbers() {
    let short = SearchRefusal::ListingBufferShort { needed: 21 };
    assert_eq!(short.refusal(), Refusal::ListingBufferShort);
    assert_eq!(short.to_string(), "refused 11");
    let refused = SearchRefusal::Refused(Refusal::TooLarge);
    assert_eq!(refused.refusal(), Refusal::TooLarge);
    assert_eq!(refused.to_string(), "refused 4");
}
