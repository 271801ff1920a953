//! The search at every scale that fits: drafts by hand, and what it refuses.

use crate::{bad_sides, lines, Lent, LISTING, NOISE, PATTERN, TEXT, TOTALS, WIDE_NOISE};
use colourway::{search_scales, search_scales_into, Refusal, SearchRefusal, Totals};

/// A text of 2 by 2 cells, in which one symbol stands at scales 1 and 2.
const TWO_SCALES: [u8; 4] = [7, 7, 7, 8];

/// Its listings by hand: four windows found, and then one refused by its last cell.
const LINES: [&str; 11] = [
    "1 0 0",
    "2 1 7",
    "1 0 1",
    "2 1 7",
    "1 1 0",
    "2 1 7",
    "1 1 1",
    "2 1 8",
    "5 0 4 0 0",
    "3 0 0 0 0 1 1",
    "5 0 0 0 1",
];

/// The sums: four found, one refused; 4 × 6 + 5 bytes and 7 + 5.
const SUMS: [usize; 3] = [4, 1, 41];

/// As the wrapper names them.
fn named([found, refused, length]: [usize; 3]) -> Totals {
    Totals {
        found,
        refused,
        length,
    }
}

#[test]
fn one_listing_after_the_other() {
    let mut lent = Lent::of(5, 5, 5, 43);
    let totals = search_scales(&TWO_SCALES, 2, 2, &[1], 1, 1, lent.lend());
    assert_eq!(totals, Ok(named(SUMS)));
    // Two rows of two links; the window of scale 2 before what scale 1 left behind its first.
    assert_eq!(lent.links, [0, 0, 0, 0, WIDE_NOISE]);
    assert_eq!(lent.counts, [2, 1, 1, 1, WIDE_NOISE]);
    assert_eq!(lent.flags, [0, 1, 1, 1, NOISE]);
    assert_eq!(lines(&lent.listing[..41]), LINES);
    assert_eq!(lent.listing[41..], [NOISE, NOISE]);
}

/// One symbol in 4 by 4 cells that all differ: at scale k every window has k × k symbols. 16, 9, 4 and 1 windows.
#[test]
fn what_each_scale_leaves_lies_in_layers() {
    let text: Vec<u8> = (1..=16).collect();
    let mut lent = Lent::of(17, 18, 18, 16 * 6 + 14 * 7 + 4 * 5);
    let totals = search_scales(&text, 4, 4, &[1], 1, 1, lent.lend());
    assert_eq!(totals, Ok(named([16, 14, 16 * 6 + 14 * 7 + 4 * 5])));
    let layers = |first, second, third, fourth, rest| {
        let entries = [
            vec![first; 1],
            vec![second; 3],
            vec![third; 5],
            vec![fourth; 7],
        ];
        [entries.concat(), vec![rest; 2]].concat()
    };
    assert_eq!(lent.counts, layers(16, 9, 4, 1, WIDE_NOISE));
    let flags: Vec<u16> = lent.flags.iter().map(|&flag| flag.into()).collect();
    assert_eq!(flags, layers(0, 0, 0, 1, NOISE.into()));
    assert_eq!(lent.links, [[0; 16].to_vec(), vec![WIDE_NOISE]].concat());
    // Each scale's own closing.
    let lines = lines(&lent.listing);
    let closings: Vec<&str> = lines
        .iter()
        .map(String::as_str)
        .filter(|line| line.starts_with('5'))
        .collect();
    assert_eq!(
        closings,
        ["5 0 16 0 0", "5 0 0 0 9", "5 0 0 0 4", "5 0 0 0 1"]
    );
}

/// Where the pattern fits at scale 1 alone it is the search.
#[test]
fn one_scale_is_the_search() {
    let mut lent = Lent::of(6, 3, 3, 23);
    let totals = search_scales(&TEXT, 2, 3, &PATTERN, 2, 2, lent.lend());
    assert_eq!(totals, Ok(TOTALS));
    crate::assert_first_draft(&lent);
    assert_eq!(lent.listing[..21], LISTING);
    assert_eq!(lent.listing[21..], [NOISE, NOISE]);
}

/// The sum of lengths exactly, and one byte less: then the listing is untouched, also by the first scale's 29 bytes.
#[test]
fn listings_into_40_bytes_need_41() {
    for room in [0, 28, 29, 40] {
        let mut lent = Lent::of(4, 4, 4, room);
        let answer = search_scales(&TWO_SCALES, 2, 2, &[1], 1, 1, lent.lend());
        let short = SearchRefusal::ListingBufferShort { needed: 41 };
        assert_eq!(answer, Err(short), "room for {room}");
        assert_eq!(lent.links, [0; 4]);
        assert_eq!(lent.counts, [2, 1, 1, 1]);
        assert_eq!(lent.flags, [0, 1, 1, 1]);
        assert_eq!(lent.listing, vec![NOISE; room]);
    }
    let mut lent = Lent::of(4, 4, 4, 41);
    let answer = search_scales(&TWO_SCALES, 2, 2, &[1], 1, 1, lent.lend());
    assert_eq!(answer, Ok(named(SUMS)));
    assert_eq!(lines(&lent.listing), LINES);
}

/// 9 is asked at the largest scale and 10 at scale 1: neither at any other.
#[test]
fn rooms_are_asked_at_either_end() {
    let number = |links, counts, flags| {
        let mut lent = Lent::of(links, counts, flags, 41);
        let answer = search_scales(&TWO_SCALES, 2, 2, &[1], 1, 1, lent.lend());
        answer.map_or_else(|why| why.refusal().number(), |_| 0)
    };
    // Two links are enough for scale 1, one window for scale 2.
    assert_eq!(number(2, 4, 4), 9);
    assert_eq!(number(3, 4, 4), 9);
    assert_eq!(number(4, 1, 4), 10);
    assert_eq!(number(4, 3, 4), 10);
    assert_eq!(number(4, 4, 3), 10);
    assert_eq!(number(4, 4, 4), 0);
}

/// A text that no scale fits: the pattern is taller, or wider, or both.
#[test]
fn no_scale_that_fits_is_refused_by_17() {
    for (rows, columns, height, width) in [
        (1, 6, 2, 1),
        (6, 1, 1, 2),
        (1, 1, 2, 2),
        (254, 255, 255, 255),
    ] {
        let (text, pattern) = (vec![5; rows * columns], vec![1; height * width]);
        let mut lent = Lent::of(99, 99, 99, 99);
        let answer = search_scales(&text, rows, columns, &pattern, height, width, lent.lend());
        assert_eq!(answer, Err(SearchRefusal::Refused(Refusal::ScaleUnfit)));
        assert_eq!(lent, Lent::of(99, 99, 99, 99));
    }
}

/// The buffers have room, so that nothing else is wrong.
#[test]
fn sides_of_0_and_256_are_refused_at_every_scale() {
    for [rows, columns, height, width] in bad_sides() {
        let (text, pattern) = (vec![5; rows * columns], vec![5; height * width]);
        let mut lent = Lent::of(256, 256, 256, 4096);
        let answer = search_scales(&text, rows, columns, &pattern, height, width, lent.lend());
        assert_eq!(answer, Err(SearchRefusal::Refused(Refusal::SideRange)));
        assert_eq!(lent, Lent::of(256, 256, 256, 4096));
    }
}

/// The draft of two scales so that it earns just these refusals, with the number and the totals; a refusal but 11
/// changes nothing.
fn earning(numbers: &[u8]) -> (u8, [usize; 3]) {
    let has = |number: u8| numbers.contains(&number);
    let text = &TWO_SCALES[..if has(3) { 3 } else { 4 }];
    // With no rows the cells are wrong as well, but 2 comes first.
    let rows = if has(2) { 0 } else { 2 };
    // A pattern of three rows fits at no scale.
    let height = if has(17) { 3 } else { 1 };
    let mut lent = Lent::of(
        if has(9) { 3 } else { 4 },
        if has(10) { 3 } else { 4 },
        4,
        if has(11) { 40 } else { 41 },
    );
    let before = lent.clone();
    let mut totals = [usize::from(NOISE); 3];
    let pattern = &[1; 3][..height];
    let outcome = search_scales_into(text, rows, 2, pattern, height, 1, lent.lend(), &mut totals);
    let number = outcome.map_or_else(Refusal::number, |()| 0);
    assert!([0, 11].contains(&number) || lent == before);
    (number, totals)
}

/// All sets of refusals: the first in the order is given.
#[test]
fn a_search_at_every_scale_refuses_in_order() {
    let order = [2, 3, 17, 9, 10, 11];
    let untouched = usize::from(NOISE);
    for set in 0..1 << order.len() {
        let earned = |place: &usize| set >> place & 1 == 1;
        let numbers: Vec<u8> = (0..order.len())
            .filter(earned)
            .map(|at| order[at])
            .collect();
        let expected = match numbers.first() {
            None => (0, SUMS),
            Some(11) => (11, [untouched, untouched, 41]),
            Some(&first) => (first, [untouched; 3]),
        };
        assert_eq!(earning(&numbers), expected, "{numbers:?}");
    }
}

/// The bytes of all listings of one symbol in a constant text of 255 by 255: 5,559,680 windows, a closing a scale.
const WHOLE: usize = 5_559_680 * 6 + 255 * 5;

/// Buffers for it, with so much room for the listing.
fn whole_lent(listing: usize) -> Lent {
    Lent::of(65_025, 65_025, 65_025, listing)
}

/// All scales from 1 to 255 find all their windows: the sums are above 65,535, and each closing has its own two bytes.
#[test]
fn sums_above_65_535() {
    let text = vec![5; 255 * 255];
    let mut lent = whole_lent(WHOLE);
    let totals = search_scales(&text, 255, 255, &[9], 1, 1, lent.lend());
    assert_eq!(totals, Ok(named([5_559_680, 0, WHOLE])));
    let mut at = 0;
    for scale in 1..=255 {
        let windows = (256 - scale) * (256 - scale);
        assert_eq!(lent.listing[at..at + 6], [1, 0, 0, 2, 9, 5]);
        at += windows * 6 + 5;
        let last = (255 - scale) as u8;
        let [high, low] = (windows as u16).to_be_bytes();
        let end = [1, last, last, 2, 9, 5, 5, high, low, 0, 0];
        assert_eq!(lent.listing[at - 11..at], end, "scale {scale}");
    }
    assert_eq!(at, WHOLE);
    assert!(lent.flags.iter().all(|&flag| flag == 1));
    assert!(lent.counts.iter().all(|&count| count == 1));
    assert!(lent.links.iter().all(|&link| link == 0));
}

#[test]
fn one_byte_too_few_for_5_559_680_windows() {
    let text = vec![5; 255 * 255];
    let mut lent = whole_lent(WHOLE - 1);
    let answer = search_scales(&text, 255, 255, &[9], 1, 1, lent.lend());
    let short = SearchRefusal::ListingBufferShort { needed: WHOLE };
    assert_eq!(answer, Err(short));
    assert!(lent.listing.iter().all(|&byte| byte == NOISE));
    assert!(lent.flags.iter().all(|&flag| flag == 1));
}
