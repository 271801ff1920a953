//! Document 01's drafts of the check, and each sentence on what it refuses, run on the proved code. Every expected
//! value is typed from document 01 or found by hand; none comes from the brute force.

mod falsehoods;
mod forms;
mod limits;

use colourway::{check, CheckRefusal, Checked};

/// The first draft's text (sheet), 2 by 3.
const TEXT: [u8; 6] = [7, 7, 3, 3, 7, 7];

/// The first draft's pattern (motif), 2 by 2.
const PATTERN: [u8; 4] = [1, 1, 2, 1];

/// The first draft's records, at the places 0, 3, 6, 9 and 16. Its windows are 7 7 / 3 7 and 7 3 / 7 7.
const FOUND: &[u8] = &[1, 0, 0];
const PAIR_OF_1: &[u8] = &[2, 1, 7];
const PAIR_OF_2: &[u8] = &[2, 2, 3];
const MISMATCH: &[u8] = &[3, 0, 1, 0, 0, 0, 1];
const CLOSING: &[u8] = &[5, 0, 1, 0, 1];
const LISTING: [&[u8]; 5] = [FOUND, PAIR_OF_1, PAIR_OF_2, MISMATCH, CLOSING];

/// The bytes of the first draft's listing.
const LENGTH: usize = 21;

/// What the totals hold before an operation.
const NOISE: usize = 0xA5;

/// What a check answers: found and refused, or the refusal.
type Answer = Result<Checked, CheckRefusal>;

fn accepted(found: usize, refused: usize) -> Answer {
    Ok(Checked { found, refused })
}

/// Refused by 6 at a place.
fn form(at: usize) -> Answer {
    Err(CheckRefusal::ListingForm { at })
}

/// Refused by 7 at a place.
fn falsehood(at: usize) -> Answer {
    Err(CheckRefusal::ListingFalse { at })
}

/// The check of a listing of the first draft.
fn first_draft(listing: &[u8]) -> Answer {
    check(&TEXT, 2, 3, &PATTERN, 2, 2, listing)
}

/// The check of these records for the first draft.
fn records(records: &[&[u8]]) -> Answer {
    first_draft(&records.concat())
}

/// The check of the first draft's listing with another record for its record number `which`.
fn with(which: usize, record: &[u8]) -> Answer {
    let mut all = LISTING;
    all[which] = record;
    records(&all)
}

/// The check of these records for a text and a pattern of one row each.
fn one_row(text: &[u8], pattern: &[u8], records: &[&[u8]]) -> Answer {
    check(
        text,
        1,
        text.len(),
        pattern,
        1,
        pattern.len(),
        &records.concat(),
    )
}

#[test]
fn the_first_draft() {
    assert_eq!(records(&LISTING), accepted(1, 1));
    assert_eq!(LISTING.concat().len(), LENGTH);
    // Document 01's three damages.
    assert_eq!(with(1, &[2, 1, 3]), falsehood(3));
    assert_eq!(first_draft(&[]), form(0));
    for more in 0..=255 {
        assert_eq!(
            first_draft(&[&LISTING.concat()[..], &[more]].concat()),
            form(21)
        );
    }
}

#[test]
fn one_row_drafts() {
    let all_found: &[u8] = &[5, 0, 1, 0, 0];
    let none_found: &[u8] = &[5, 0, 0, 0, 1];
    assert_eq!(
        one_row(&[5], &[5], &[FOUND, &[2, 5, 5], all_found]),
        accepted(1, 0)
    );
    assert_eq!(
        one_row(
            &[2, 1],
            &[1, 2],
            &[FOUND, &[2, 1, 2], &[2, 2, 1], all_found]
        ),
        accepted(1, 0)
    );
    let refused = |text: &[u8], pattern: &[u8], mismatch: &[u8]| {
        assert_eq!(
            one_row(text, pattern, &[mismatch, none_found]),
            accepted(0, 1)
        );
    };
    refused(&[4, 4], &[1, 2], &[4, 0, 0, 0, 0, 0, 1]);
    refused(&[4, 5], &[1, 1], &[3, 0, 0, 0, 0, 0, 1]);
    refused(&[4, 5, 5], &[1, 2, 1], &[3, 0, 0, 0, 0, 0, 2]);
    refused(&[4, 5, 4], &[1, 2, 2], &[4, 0, 0, 0, 0, 0, 2]);
    // "Any true clash will do": these are not the search's.
    refused(&[4, 5, 5], &[1, 2, 1], &[4, 0, 0, 0, 1, 0, 2]);
    refused(&[4, 5, 4], &[1, 2, 2], &[3, 0, 0, 0, 1, 0, 2]);
    refused(&[4, 5, 6], &[1, 1, 1], &[3, 0, 0, 0, 0, 0, 1]);
    refused(&[4, 5, 6], &[1, 1, 1], &[3, 0, 0, 0, 0, 0, 2]);
    refused(&[4, 5, 6], &[1, 1, 1], &[3, 0, 0, 0, 1, 0, 2]);
}

/// The second window of the first draft has 7 3 / 7 7 under 1 1 / 2 1: these are all the pairs of cells that are alike
/// on one side only.
#[test]
fn any_true_mismatch_will_do() {
    for mismatch in [
        [3, 0, 1, 0, 0, 0, 1],
        [3, 0, 1, 0, 1, 1, 1],
        [4, 0, 1, 0, 0, 1, 0],
        [4, 0, 1, 1, 0, 1, 1],
    ] {
        assert_eq!(with(3, &mismatch), accepted(1, 1));
    }
}
