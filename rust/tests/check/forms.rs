//! What is refused by 6: records of another kind than is due, missing, cut or left over; and which bad record decides.

use crate::{
    falsehood, first_draft, form, records, with, CLOSING, FOUND, LENGTH, LISTING, MISMATCH,
    PAIR_OF_1, PAIR_OF_2,
};

#[test]
fn another_kind_than_is_due_has_the_wrong_form() {
    // For each record in turn one of every other kind, due or known or not.
    let places = [0, 3, 6, 9, 16];
    let due: [&[u8]; 5] = [&[1, 3, 4], &[2], &[2], &[1, 3, 4], &[5]];
    for which in 0..5 {
        for kind in (0..=255).filter(|kind| !due[which].contains(kind)) {
            let record = [kind, 0, 0, 0, 0, 0, 1];
            assert_eq!(with(which, &record), form(places[which]));
        }
    }
}

#[test]
fn records_left_out_or_added_have_the_wrong_form() {
    // No window at all, and the last one missing.
    assert_eq!(records(&[CLOSING]), form(0));
    assert_eq!(records(&[FOUND, PAIR_OF_1, PAIR_OF_2, CLOSING]), form(9));
    // Too few pairs: the next record is bad.
    assert_eq!(records(&[FOUND, PAIR_OF_1, MISMATCH, CLOSING]), form(6));
    assert_eq!(records(&[FOUND, MISMATCH, CLOSING]), form(3));
    // Too many: the one too many is.
    assert_eq!(
        records(&[FOUND, PAIR_OF_1, PAIR_OF_2, &[2, 3, 9], MISMATCH, CLOSING]),
        form(9)
    );
    assert_eq!(
        records(&[FOUND, PAIR_OF_1, PAIR_OF_2, MISMATCH, &[2, 1, 7], CLOSING]),
        form(16)
    );
    // A window too many.
    assert_eq!(
        records(&[FOUND, PAIR_OF_1, PAIR_OF_2, MISMATCH, MISMATCH, CLOSING]),
        form(16)
    );
    // No closing, and two.
    assert_eq!(records(&LISTING[..4]), form(16));
    assert_eq!(records(&[&LISTING[..], &[CLOSING]].concat()), form(21));
    assert_eq!(records(&[LISTING, LISTING].concat()), form(21));
}

/// A listing cut anywhere lacks its last record, or has it cut: the place is that record's, or the listing's length.
#[test]
fn cut_and_missing_records_have_the_wrong_form() {
    let listing = LISTING.concat();
    for length in 0..LENGTH {
        let place = match length {
            0..=2 => 0,
            3..=5 => 3,
            6..=8 => 6,
            9..=15 => 9,
            _ => 16,
        };
        assert_eq!(first_draft(&listing[..length]), form(place));
    }
    // A cut record has the wrong form, whatever the bytes that are left of it say.
    assert_eq!(first_draft(&[1, 9]), form(0));
    assert_eq!(first_draft(&[3, 9, 9, 9, 9, 9]), form(0));
}

#[test]
fn the_first_bad_record_decides() {
    // A false one before one of wrong form, and the other way round.
    assert_eq!(records(&[FOUND, &[2, 1, 3], &[9]]), falsehood(3));
    assert_eq!(records(&[FOUND, &[2, 1, 3]]), falsehood(3));
    assert_eq!(records(&[FOUND, MISMATCH, &[2, 1, 3]]), form(3));
    assert_eq!(
        records(&[&LISTING[..4], &[&[5, 0, 2, 0, 0], &[0]]].concat()),
        falsehood(16)
    );
    assert_eq!(records(&[&[1, 0, 1], &[2, 1, 3]]), falsehood(0));
}
