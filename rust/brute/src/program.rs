//! "The program" by brute force: what stands on standard output for what stood on standard input.

use crate::listing::first_record;
use crate::search::{search, Buffers};
use crate::{first_refusal, some_side_is_bad};

/// "Its listing buffer has 65,536 bytes."
const LISTING_BYTES: usize = 65_536;

/// Condition 8: "sheet or motif has more than 16,384 cells".
const MOST_CELLS: usize = 16_384;

/// "Standard input: R, C, r, c as one byte each, the sheet, the motif, nothing after."
pub fn program(input: &[u8]) -> Vec<u8> {
    match listing_of(input) {
        Ok(listing) => lines(&listing),
        Err(number) => format!("refused {number}\n").into_bytes(),
    }
}

/// The listing, or the number of the refusal: "program 1, 2, 8, 3, 4, then the search's own".
fn listing_of(input: &[u8]) -> Result<Vec<u8>, u8> {
    let (sides, cells) = input.split_first_chunk::<4>().ok_or(1)?;
    let [rows, columns, height, width] = sides.map(usize::from);
    let number = first_refusal(&[
        (2, some_side_is_bad(&[rows, columns, height, width])),
        (
            8,
            rows * columns > MOST_CELLS || height * width > MOST_CELLS,
        ),
        (3, cells.len() != rows * columns + height * width),
        (4, height > rows || width > columns),
    ]);
    if number != 0 {
        return Err(number);
    }
    let (text, pattern) = cells.split_at(rows * columns);
    // Of the search's own refusals the program can meet 11 alone: the other buffers have an entry for every cell.
    let lent = Buffers {
        links: vec![0; rows * columns],
        counts: vec![0; rows * columns],
        flags: vec![0; rows * columns],
        listing: vec![0; LISTING_BYTES],
    };
    let (number, returned, after) = search(text, rows, columns, pattern, height, width, &lent);
    match (number, &returned[..]) {
        (0, &[_, _, length]) => Ok(after.listing[..length].to_vec()),
        _ => Err(number),
    }
}

/// "A record a line, its bytes in decimal with one space between, line feed."
fn lines(listing: &[u8]) -> Vec<u8> {
    let mut printed = String::new();
    let mut rest = listing;
    while let Some(record) = first_record(rest) {
        let numbers: Vec<String> = record.iter().map(u8::to_string).collect();
        printed += &(numbers.join(" ") + "\n");
        rest = &rest[record.len()..];
    }
    printed.into_bytes()
}

#[cfg(test)]
mod tests {
    use super::*;

    fn printed(input: &[u8]) -> String {
        String::from_utf8(program(input)).expect("decimals and words")
    }

    #[test]
    fn the_first_draft() {
        let input = [2, 3, 2, 2, 7, 7, 3, 3, 7, 7, 1, 1, 2, 1];
        assert_eq!(
            printed(&input),
            "1 0 0\n2 1 7\n2 2 3\n3 0 1 0 0 0 1\n5 0 1 0 1\n"
        );
    }

    #[test]
    fn bytes_are_decimal() {
        let input = [1, 1, 1, 1, 255, 10];
        assert_eq!(printed(&input), "1 0 0\n2 10 255\n5 0 1 0 0\n");
    }

    /// Each input earns the number it gets and every later one that it can.
    #[test]
    fn refused_in_order() {
        assert_eq!(printed(&[]), "refused 1\n");
        assert_eq!(printed(&[0, 255, 255]), "refused 1\n");
        assert_eq!(printed(&[255, 255, 255, 0]), "refused 2\n");
        assert_eq!(printed(&[128, 128, 128, 129]), "refused 8\n");
        assert_eq!(printed(&[129, 128, 255, 1]), "refused 8\n");
        assert_eq!(printed(&[1, 1, 2, 1, 5, 5]), "refused 3\n");
        assert_eq!(printed(&[1, 1, 1, 1, 5, 5, 5]), "refused 3\n");
        assert_eq!(printed(&[1, 1, 2, 1, 5, 5, 5]), "refused 4\n");
        // 16,384 windows of one cell: 16,384 × 6 + 5 bytes.
        let input = [&[128, 128, 1, 1], &[5; 16_385][..]].concat();
        assert_eq!(printed(&input), "refused 11\n");
    }
}
