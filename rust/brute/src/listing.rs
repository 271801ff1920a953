//! "Reading" by brute force: the body of a record has the length that the table gives for its kind.

use crate::first_refusal;

/// "Every record is one byte of kind and a body whose length the kind fixes."
fn body_length(kind: u8) -> Option<usize> {
    match kind {
        1 | 2 => Some(2),
        3 | 4 => Some(6),
        5 => Some(4),
        _ => None,
    }
}

/// The whole record, kind and body, with which these bytes begin.
pub(crate) fn first_record(bytes: &[u8]) -> Option<&[u8]> {
    let length = body_length(*bytes.first()?)?;
    bytes.get(..1 + length)
}

/// "The reader answers a record with the cursor after it, or 6 for an unknown kind or a cut record, or 15": the
/// outcome's number; the record's kind and its numbers, none where it is refused; the cursor after it, or "the cursor's
/// place".
pub fn read(listing: &[u8], at: usize) -> (u8, Vec<u16>, usize) {
    let rest = listing.get(at..).unwrap_or(&[]);
    let record = first_record(rest);
    let number = first_refusal(&[(15, at >= listing.len()), (6, record.is_none())]);
    match record {
        Some(record) if number == 0 => (0, numbers_of(record), at + record.len()),
        _ => (number, Vec::new(), at),
    }
}

/// A record's kind and its numbers. Those of a closing have "two bytes each, high byte first", the others one.
fn numbers_of(record: &[u8]) -> Vec<u16> {
    let number = |high: u8, low: u8| 256 * u16::from(high) + u16::from(low);
    match *record {
        [5, a, b, c, d] => vec![5, number(a, b), number(c, d)],
        _ => record.iter().map(|&byte| number(0, byte)).collect(),
    }
}

#[cfg(test)]
mod tests {
    use super::*;

    /// The first draft's listing: `1 0 0`, `2 1 7`, `2 2 3`, `3 0 1 0 0 0 1`, `5 0 1 0 1`.
    const LISTING: [u8; 21] = [
        1, 0, 0, 2, 1, 7, 2, 2, 3, 3, 0, 1, 0, 0, 0, 1, 5, 0, 1, 0, 1,
    ];

    #[test]
    fn records_of_the_first_draft() {
        assert_eq!(read(&LISTING, 0), (0, vec![1, 0, 0], 3));
        assert_eq!(read(&LISTING, 3), (0, vec![2, 1, 7], 6));
        assert_eq!(read(&LISTING, 6), (0, vec![2, 2, 3], 9));
        assert_eq!(read(&LISTING, 9), (0, vec![3, 0, 1, 0, 0, 0, 1], 16));
        assert_eq!(read(&LISTING, 16), (0, vec![5, 1, 1], 21));
        assert_eq!(read(&LISTING, 21), (15, vec![], 21));
        assert_eq!(read(&LISTING, usize::MAX), (15, vec![], usize::MAX));
        assert_eq!(read(&[], 0), (15, vec![], 0));
    }

    #[test]
    fn unknown_kinds_and_cut_records() {
        // A 0 stands at place 1.
        assert_eq!(read(&LISTING, 1), (6, vec![], 1));
        assert_eq!(read(&LISTING[..20], 16), (6, vec![], 16));
        assert_eq!(read(&LISTING[..15], 9), (6, vec![], 9));
        assert_eq!(read(&[6, 0, 0, 0, 0, 0, 0], 0), (6, vec![], 0));
        assert_eq!(read(&[9, 4, 1, 2, 3, 4, 5], 1), (6, vec![], 1));
    }

    #[test]
    fn closings_have_the_high_byte_first() {
        assert_eq!(read(&[5, 1, 2, 254, 1], 0), (0, vec![5, 258, 65025], 5));
    }
}
