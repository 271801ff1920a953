//! The records of a listing and their reader (document 01, 'Search and listing' and 'Reading and checking').

use crate::{foreign, outcome, Refusal};
use std::array;
use std::fmt;

/// A place by row and column: a window's corner in the text, or a cell in the pattern.
#[derive(Clone, Copy, Debug, PartialEq, Eq)]
pub struct Place {
    /// The row, from 0.
    pub row: u8,
    /// The column, from 0.
    pub column: u8,
}

/// A record of a listing. A window is named by its corner.
#[derive(Clone, Copy, Debug, PartialEq, Eq)]
pub enum Record {
    /// Kind 1: the pattern matches the window. The pairs come next.
    Found {
        /// The window's corner.
        window: Place,
    },
    /// Kind 2: a symbol of the pattern, and the window's symbol in its cells.
    Pair {
        /// The pattern's symbol.
        pattern: u8,
        /// The window's symbol in its cells.
        text: u8,
    },
    /// Kinds 3 and 4: two cells that are alike on one side only (document 01's clash).
    Mismatch {
        /// Whether they are alike in the pattern, and not in the window: kind 3. Otherwise kind 4.
        alike_in_pattern: bool,
        /// The window's corner.
        window: Place,
        /// The earlier cell, by its place in the pattern.
        earlier: Place,
        /// The later cell, by its place in the pattern.
        later: Place,
    },
    /// Kind 5: how many windows were found and how many refused.
    Closing {
        /// How many were found.
        found: u16,
        /// How many were refused.
        refused: u16,
    },
}

impl Record {
    /// The record's bytes in a listing: its kind, and then its body.
    pub fn bytes(self) -> Vec<u8> {
        match self {
            Record::Found { window } => vec![1, window.row, window.column],
            Record::Pair { pattern, text } => vec![2, pattern, text],
            Record::Mismatch {
                alike_in_pattern,
                window,
                earlier,
                later,
            } => vec![
                if alike_in_pattern { 3 } else { 4 },
                window.row,
                window.column,
                earlier.row,
                earlier.column,
                later.row,
                later.column,
            ],
            Record::Closing { found, refused } => {
                [&[5], &found.to_be_bytes()[..], &refused.to_be_bytes()].concat()
            }
        }
    }

    /// The record that a reader's fields hold. Of their numbers only a closing's are not bytes.
    fn of_fields([kind, a, b, c, d, e, f]: [u16; 7]) -> Record {
        let place = |row: u16, column: u16| Place {
            row: row as u8,
            column: column as u8,
        };
        match kind {
            1 => Record::Found {
                window: place(a, b),
            },
            2 => Record::Pair {
                pattern: a as u8,
                text: b as u8,
            },
            5 => Record::Closing {
                found: a,
                refused: b,
            },
            _ => Record::Mismatch {
                alike_in_pattern: kind == 3,
                window: place(a, b),
                earlier: place(c, d),
                later: place(e, f),
            },
        }
    }
}

impl fmt::Display for Record {
    /// As document 01's program prints it: the bytes in decimal, with one space between.
    fn fmt(&self, f: &mut fmt::Formatter) -> fmt::Result {
        let numbers: Vec<String> = self.bytes().iter().map(u8::to_string).collect();
        f.write_str(&numbers.join(" "))
    }
}

/// Why there is no record at a cursor.
#[derive(Clone, Copy, Debug, PartialEq, Eq)]
pub struct ReadRefusal {
    /// [`Refusal::CursorSpent`] or [`Refusal::ListingForm`].
    pub why: Refusal,
    /// The cursor's place.
    pub at: usize,
}

impl fmt::Display for ReadRefusal {
    fn fmt(&self, f: &mut fmt::Formatter) -> fmt::Result {
        write!(f, "{} at {}", self.why, self.at)
    }
}

impl std::error::Error for ReadRefusal {}

/// The record at the place `at` of a listing, with the place after it.
///
/// Refused by [`Refusal::CursorSpent`] at or past the listing's end, and by [`Refusal::ListingForm`] where an unknown
/// kind or a cut record stands, in this order.
pub fn read(listing: &[u8], at: usize) -> Result<(Record, usize), ReadRefusal> {
    let mut fields = [0; 7];
    let mut next = 0;
    match read_into(listing, at, &mut fields, &mut next) {
        Ok(()) => Ok((Record::of_fields(fields), next)),
        Err(why) => Err(ReadRefusal { why, at: next }),
    }
}

/// [`read`] with its answer in what is lent to it: the record's kind and its numbers, and then zeros; and the place
/// after the record.
///
/// A refusal leaves the fields as they were, and has the cursor's place for the place after.
pub fn read_into(
    listing: &[u8],
    at: usize,
    fields: &mut [u16; 7],
    next: &mut usize,
) -> Result<(), Refusal> {
    // SAFETY: the slice is passed as it is, a pointer with its own length; the fields are seven and the next place is
    // one.
    outcome(unsafe {
        foreign::colourway_read(
            listing.as_ptr(),
            listing.len(),
            at,
            fields,
            array::from_mut(next),
        )
    })
}

/// The records of a listing, one after the other, as [`records`] gives them.
#[derive(Clone, Debug)]
pub struct Records<'a> {
    listing: &'a [u8],
    at: usize,
}

/// The records of a listing from its first byte to its end. Where there is no whole record the refusal is given, and
/// nothing after it.
///
/// The records' order is not looked at, and neither is whether they are true.
pub fn records(listing: &[u8]) -> Records<'_> {
    Records { listing, at: 0 }
}

impl Iterator for Records<'_> {
    type Item = Result<Record, ReadRefusal>;

    fn next(&mut self) -> Option<Self::Item> {
        match read(self.listing, self.at) {
            Ok((record, next)) => {
                self.at = next;
                Some(Ok(record))
            }
            Err(refused) if refused.why == Refusal::CursorSpent => None,
            Err(refused) => {
                self.at = self.listing.len();
                Some(Err(refused))
            }
        }
    }
}
