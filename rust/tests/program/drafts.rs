//! Document 01's drafts through the program. It prints the output of some in full; of the others, which it gives in
//! part, the rest is found by hand from its rules.

use crate::{input, lines, one_row, printed};

/// The first draft: text 7 7 3 / 3 7 7, pattern 1 1 / 2 1.
fn first_draft() -> Vec<u8> {
    input([2, 3, 2, 2], &[7, 7, 3, 3, 7, 7], &[1, 1, 2, 1])
}

/// Every draft that is an input of the program, with its output.
fn drafts() -> [(Vec<u8>, String); 8] {
    [
        (
            first_draft(),
            lines(&["1 0 0", "2 1 7", "2 2 3", "3 0 1 0 0 0 1", "5 0 1 0 1"]),
        ),
        (one_row(&[5], &[5]), lines(&["1 0 0", "2 5 5", "5 0 1 0 0"])),
        (
            one_row(&[4, 4], &[1, 2]),
            lines(&["4 0 0 0 0 0 1", "5 0 0 0 1"]),
        ),
        (
            one_row(&[4, 5], &[1, 1]),
            lines(&["3 0 0 0 0 0 1", "5 0 0 0 1"]),
        ),
        // Document 01 gives the first line of these two. They have one window, so the closing is all that is left.
        (
            one_row(&[4, 5, 5], &[1, 2, 1]),
            lines(&["3 0 0 0 0 0 2", "5 0 0 0 1"]),
        ),
        (
            one_row(&[4, 5, 4], &[1, 2, 2]),
            lines(&["4 0 0 0 0 0 2", "5 0 0 0 1"]),
        ),
        // "Found, pairs 1 2 and 2 1": its one window, and the closing.
        (
            one_row(&[2, 1], &[1, 2]),
            lines(&["1 0 0", "2 1 2", "2 2 1", "5 0 1 0 0"]),
        ),
        // "Motif as large as the sheet: one window", of the first draft's sheet: 1 is 7 and 2 is 3.
        (
            input([2, 3, 2, 3], &[7, 7, 3, 3, 7, 7], &[1, 1, 2, 2, 1, 1]),
            lines(&["1 0 0", "2 1 7", "2 2 3", "5 0 1 0 0"]),
        ),
    ]
}

#[test]
fn drafts_are_printed_as_document_01_has_them() {
    for (input, output) in drafts() {
        assert_eq!(printed(&input), output, "{input:?}");
    }
}

/// The example on the customer's table: motif 1 1 / 2 1, window 7 7 / 3 7, found at row 0, column 0.
#[test]
fn the_example_on_the_table() {
    assert_eq!(
        printed(&input([2, 2, 2, 2], &[7, 7, 3, 7], &[1, 1, 2, 1])),
        lines(&["1 0 0", "2 1 7", "2 2 3", "5 0 1 0 0"])
    );
}

/// A draft cut anywhere has too few sizes, or too few cells.
#[test]
fn cut_drafts_are_refused() {
    for (input, _) in drafts() {
        for length in 0..input.len() {
            let number = if length < 4 { 1 } else { 3 };
            let refusal = format!("refused {number}\n");
            assert_eq!(printed(&input[..length]), refusal, "{length} of {input:?}");
        }
    }
}

/// "Nothing after": a byte more is a cell too many, whatever it holds.
#[test]
fn overlong_drafts_are_refused() {
    for (input, _) in drafts() {
        for more in [&[0][..], b"\n", &[255], &[1; 9]] {
            let overlong = [&input, more].concat();
            assert_eq!(printed(&overlong), "refused 3\n", "{overlong:?}");
        }
    }
    let twice = first_draft().repeat(2);
    assert_eq!(printed(&twice), "refused 3\n");
}

/// Number 0 is a yarn number like any other, and so are 10 and 26, which a terminal would take for more.
#[test]
fn any_byte_is_a_symbol() {
    for symbol in 0..=255u8 {
        let other = symbol.wrapping_add(1);
        let mut pairs = [(symbol, other), (other, symbol)];
        pairs.sort();
        let [(a, b), (c, d)] = pairs;
        assert_eq!(
            printed(&one_row(&[symbol, other], &[other, symbol])),
            format!("1 0 0\n2 {a} {b}\n2 {c} {d}\n5 0 1 0 0\n")
        );
    }
}
