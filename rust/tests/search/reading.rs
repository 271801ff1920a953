//! The reader: document 01's first draft, record by record, and what it refuses.

use crate::{lines, LINES, LISTING, WIDE_NOISE};
use colourway::{read, read_into, records, Place, ReadRefusal, Record, Refusal};

/// A place by row and column.
fn place(row: u8, column: u8) -> Place {
    Place { row, column }
}

#[test]
fn reading_the_first_draft() {
    let window = place(0, 0);
    assert_eq!(read(&LISTING, 0), Ok((Record::Found { window }, 3)));
    let pair = |pattern, text| Record::Pair { pattern, text };
    assert_eq!(read(&LISTING, 3), Ok((pair(1, 7), 6)));
    assert_eq!(read(&LISTING, 6), Ok((pair(2, 3), 9)));
    let mismatch = Record::Mismatch {
        alike_in_pattern: true,
        window: place(0, 1),
        earlier: place(0, 0),
        later: place(0, 1),
    };
    assert_eq!(read(&LISTING, 9), Ok((mismatch, 16)));
    let (found, refused) = (1, 1);
    let closing = Record::Closing { found, refused };
    assert_eq!(read(&LISTING, 16), Ok((closing, 21)));
    for at in [21, 22, usize::MAX] {
        let why = Refusal::CursorSpent;
        assert_eq!(read(&LISTING, at), Err(ReadRefusal { why, at }));
    }
    assert_eq!(lines(&LISTING), LINES);
}

/// Each number of a record goes to its own place, and a closing's have the high byte first.
#[test]
fn the_numbers_of_a_record_have_an_order() {
    let mismatch = Record::Mismatch {
        alike_in_pattern: false,
        window: place(10, 20),
        earlier: place(30, 40),
        later: place(50, 255),
    };
    assert_eq!(read(&[9, 4, 10, 20, 30, 40, 50, 255], 1), Ok((mismatch, 8)));
    let closing = Record::Closing {
        found: 258,
        refused: 65_025,
    };
    assert_eq!(read(&[5, 1, 2, 254, 1], 0), Ok((closing, 5)));
    assert_eq!(closing.bytes(), [5, 1, 2, 254, 1]);
    assert_eq!(closing.to_string(), "5 1 2 254 1");
    assert_eq!(mismatch.to_string(), "4 10 20 30 40 50 255");
}

#[test]
fn unknown_kinds_and_cut_records_are_refused() {
    let refusal = |at| ReadRefusal {
        why: Refusal::ListingForm,
        at,
    };
    let refused = |at| Err(refusal(at));
    // A 0 stands at place 1.
    assert_eq!(read(&LISTING, 1), refused(1));
    assert_eq!(read(&[6, 0, 0, 0, 0, 0, 0], 0), refused(0));
    assert_eq!(read(&[255, 0, 0, 0, 0, 0, 0], 0), refused(0));
    // The place of the cut record, and the bytes that are left of it.
    for (at, left) in [(0, 2), (3, 1), (9, 6), (16, 4)] {
        assert_eq!(read(&LISTING[..at + left], at), refused(at));
    }
    // A refusal is the last that the records of a listing give.
    let window = place(0, 0);
    let given: Vec<_> = records(&LISTING[..5]).collect();
    assert_eq!(given, [Ok(Record::Found { window }), Err(refusal(3))]);
    assert_eq!(refusal(3).to_string(), "refused 6 at 3");
}

/// What the reader is lent is written whatever it held, and a refusal leaves the fields.
#[test]
fn fields_are_written_and_a_refusal_changes_none() {
    let into = |at| {
        let mut fields = [WIDE_NOISE; 7];
        let mut next = 99;
        let outcome = read_into(&LISTING[..20], at, &mut fields, &mut next);
        (outcome, fields, next)
    };
    assert_eq!(into(3), (Ok(()), [2, 1, 7, 0, 0, 0, 0], 6));
    assert_eq!(into(9), (Ok(()), [3, 0, 1, 0, 0, 0, 1], 16));
    let untouched = [WIDE_NOISE; 7];
    assert_eq!(into(16), (Err(Refusal::ListingForm), untouched, 16));
    assert_eq!(into(20), (Err(Refusal::CursorSpent), untouched, 20));
}
