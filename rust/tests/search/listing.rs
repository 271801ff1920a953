//! The list: document 01's first draft from its flags, and the flags that it refuses.

use crate::{bad_sides, LISTING, NOISE, PATTERN, TEXT, TOTALS};
use colourway::{list, list_into, Refusal, SearchRefusal, Totals};

/// What the totals hold before a list.
const UNTOUCHED: [usize; 3] = [NOISE as usize; 3];

/// The refusal by flags that are not the truth.
const FALSE: SearchRefusal = SearchRefusal::Refused(Refusal::FlagsFalse);

/// The first draft with these flags and so much room: what is answered, and the listing buffer afterwards.
fn first_draft(flags: &[u8], room: usize) -> (Result<Totals, SearchRefusal>, Vec<u8>) {
    let mut listing = vec![NOISE; room];
    let answer = list(&TEXT, 2, 3, &PATTERN, 2, 2, flags, &mut listing);
    (answer, listing)
}

/// Fails unless the first draft's listing is written for these flags.
fn accepted(flags: &[u8]) {
    let (totals, listing) = first_draft(flags, 23);
    assert_eq!(totals, Ok(TOTALS));
    assert_eq!(listing[..21], LISTING);
    assert_eq!(listing[21..], [NOISE; 2]);
}

/// Fails unless the first draft refuses these flags by 16, whatever room it has, and touches no listing.
fn refused(flags: &[u8]) {
    for room in [0, 20, 21, 23] {
        let untouched = vec![NOISE; room];
        assert_eq!(first_draft(flags, room), (Err(FALSE), untouched));
    }
}

#[test]
fn list_of_the_first_draft() {
    accepted(&[1, 0]);
}

/// 16 comes before 11: it is given for wrong flags with room for 0 and for 20 bytes too.
#[test]
fn flags_that_are_not_the_truth_are_refused() {
    for flags in [[0, 0], [1, 1], [0, 1]] {
        refused(&flags);
    }
}

/// Every value of either window's flag: one is the truth.
#[test]
fn one_value_of_a_flag_is_the_truth() {
    for value in 0..=255 {
        match value {
            1 => accepted(&[value, 0]),
            _ => refused(&[value, 0]),
        }
        match value {
            0 => accepted(&[1, value]),
            _ => refused(&[1, value]),
        }
    }
}

#[test]
fn what_stands_behind_the_flags_counts_for_nothing() {
    for value in 0..=255 {
        accepted(&[1, 0, value]);
        accepted(&[1, 0, value, value]);
        refused(&[1, 1, value]);
    }
}

/// 1 2 / 1 1 matches the second window, 7 3 / 7 7, and not the first.
#[test]
fn flags_of_another_pattern_are_refused() {
    let other = [1, 2, 1, 1];
    let mut listing = [NOISE; 21];
    let of_first = list(&TEXT, 2, 3, &other, 2, 2, &[1, 0], &mut listing);
    assert_eq!(of_first, Err(FALSE));
    assert_eq!(listing, [NOISE; 21]);
    let own = list(&TEXT, 2, 3, &other, 2, 2, &[0, 1], &mut listing);
    assert_eq!(own.map(|totals| totals.length), Ok(21));
    refused(&[0, 1]);
}

#[test]
fn a_list_into_20_bytes_needs_21() {
    let short = SearchRefusal::ListingBufferShort { needed: 21 };
    for room in [0, 1, 20] {
        let untouched = vec![NOISE; room];
        assert_eq!(first_draft(&[1, 0], room), (Err(short), untouched));
    }
    let (totals, listing) = first_draft(&[1, 0], 21);
    assert_eq!(totals.map(|totals| totals.length), Ok(21));
    assert_eq!(listing, LISTING);
}

/// 65,025 windows of one cell are found: one wrong flag among them, the first, a middle one or the last.
#[test]
fn one_flag_among_65_025_is_judged() {
    let text = vec![5; 255 * 255];
    let mut flags = vec![1; 255 * 255];
    let mut listing = vec![NOISE; 65_025 * 6 + 5];
    for window in [0, 254, 255, 32_768, 65_023, 65_024] {
        for value in [0, 2, 255] {
            flags[window] = value;
            let answer = list(&text, 255, 255, &[9], 1, 1, &flags, &mut listing);
            assert_eq!(answer, Err(FALSE));
        }
        flags[window] = 1;
    }
    assert!(listing.iter().all(|&byte| byte == NOISE));
    let answer = list(&text, 255, 255, &[9], 1, 1, &flags, &mut listing);
    assert_eq!(answer.map(|totals| totals.found), Ok(65_025));
    assert_eq!(listing[..6], [1, 0, 0, 2, 9, 5]);
    assert_eq!(
        listing[65_024 * 6..],
        [1, 254, 254, 2, 9, 5, 5, 254, 1, 0, 0]
    );
}

/// Flags and listing have room, so that nothing else is wrong.
#[test]
fn list_refuses_sides_of_0_and_256() {
    for [rows, columns, height, width] in bad_sides() {
        let (text, pattern) = (vec![5; rows * columns], vec![5; height * width]);
        let (flags, mut listing) = ([1; 256], [NOISE; 4096]);
        let into = &mut listing;
        let answer = list(&text, rows, columns, &pattern, height, width, &flags, into);
        assert_eq!(answer, Err(SearchRefusal::Refused(Refusal::SideRange)));
        assert_eq!(listing, [NOISE; 4096]);
    }
}

/// One input that earns every refusal at once, mended step by step, meets them in order. A refusal but 11 leaves the
/// totals, and 11 writes the length needed alone. As many flags as windows are enough, and one fewer is not.
#[test]
fn list_refuses_in_order() {
    let number = |cells: usize, rows, pattern_cells: usize, height, flags: &[u8], room: usize| {
        let text = &TEXT[..cells];
        let pattern = &[1, 1, 2, 1, 2, 1][..pattern_cells];
        let mut listing = vec![NOISE; room];
        let mut totals = UNTOUCHED;
        let outcome = list_into(
            text,
            rows,
            3,
            pattern,
            height,
            2,
            flags,
            &mut listing,
            &mut totals,
        );
        assert!(outcome.is_ok() || listing == vec![NOISE; room]);
        (outcome.map_or_else(Refusal::number, |()| 0), totals)
    };
    let needed = [UNTOUCHED[0], UNTOUCHED[1], 21];
    for bad in [0, 256, usize::MAX] {
        assert_eq!(number(5, 2, 5, bad, &[2], 0), (2, UNTOUCHED));
        assert_eq!(number(5, bad, 5, 3, &[2], 0), (2, UNTOUCHED));
    }
    assert_eq!(number(5, 2, 6, 3, &[2], 0), (3, UNTOUCHED));
    assert_eq!(number(6, 2, 5, 3, &[2], 0), (3, UNTOUCHED));
    assert_eq!(number(6, 2, 6, 3, &[2], 0), (4, UNTOUCHED));
    assert_eq!(number(6, 2, 4, 2, &[], 0), (10, UNTOUCHED));
    assert_eq!(number(6, 2, 4, 2, &[2], 0), (10, UNTOUCHED));
    assert_eq!(number(6, 2, 4, 2, &[1], 21), (10, UNTOUCHED));
    assert_eq!(number(6, 2, 4, 2, &[2, 0], 0), (16, UNTOUCHED));
    assert_eq!(number(6, 2, 4, 2, &[1, 2], 20), (16, UNTOUCHED));
    assert_eq!(number(6, 2, 4, 2, &[1, 1], 21), (16, UNTOUCHED));
    assert_eq!(number(6, 2, 4, 2, &[1, 0], 0), (11, needed));
    assert_eq!(number(6, 2, 4, 2, &[1, 0], 20), (11, needed));
    assert_eq!(number(6, 2, 4, 2, &[1, 0], 21), (0, [1, 1, 21]));
}

#[test]
fn a_refusal_by_16_has_its_number() {
    assert_eq!(FALSE.refusal(), Refusal::FlagsFalse);
    assert_eq!(FALSE.refusal().number(), 16);
    assert_eq!(FALSE.to_string(), "refused 16");
}
