//! Document 01's drafts and misweaves of bijections and the one-window question, run on the proved code. Every expected
//! value is typed from document 01 or found by hand; none comes from the brute force.

use colourway::{one_window, one_window_into, Bijection, Refusal, WindowAnswer, NONE};

/// The first draft's text (sheet), 2 by 3.
const TEXT: [u8; 6] = [7, 7, 3, 3, 7, 7];

/// The first draft's pattern (motif), 2 by 2.
const PATTERN: [u8; 4] = [1, 1, 2, 1];

/// The bijection with these pairs and no other.
fn holding(pairs: &[(u8, u8)]) -> Bijection {
    let mut forward = [NONE; 256];
    let mut backward = [NONE; 256];
    for &(a, c) in pairs {
        forward[usize::from(a)] = u16::from(c);
        backward[usize::from(c)] = u16::from(a);
    }
    Bijection::from_columns(forward, backward)
}

/// A match with these pairs and no other: document 01's kinds 1 and 2.
fn found(pairs: &[(u8, u8)]) -> Result<WindowAnswer, Refusal> {
    Ok(WindowAnswer::Match(holding(pairs)))
}

/// A mismatch of document 01's kind 3 or 4.
fn clash(kind: u8, earlier: usize, later: usize) -> Result<WindowAnswer, Refusal> {
    Ok(WindowAnswer::Mismatch {
        alike_in_pattern: kind == 3,
        earlier,
        later,
    })
}

/// The answer for a pattern of one row in a text of one row that is as long.
fn one_row(text: &[u8], pattern: &[u8]) -> Result<WindowAnswer, Refusal> {
    one_window(text, 1, text.len(), pattern, 1, pattern.len(), 0, 0)
}

#[test]
fn windows_of_the_first_draft() {
    let window = |column| one_window(&TEXT, 2, 3, &PATTERN, 2, 2, 0, column);
    assert_eq!(window(0), found(&[(1, 7), (2, 3)]));
    assert_eq!(window(1), clash(3, 0, 1));
    assert_eq!(window(2), Err(Refusal::CornerOutside));
}

#[test]
fn one_row_drafts() {
    assert_eq!(one_row(&[5], &[5]), found(&[(5, 5)]));
    assert_eq!(one_row(&[4, 4], &[1, 2]), clash(4, 0, 1));
    assert_eq!(one_row(&[4, 5, 5], &[1, 2, 1]), clash(3, 0, 2));
    assert_eq!(one_row(&[4, 5, 4], &[1, 2, 2]), clash(4, 0, 2));
    assert_eq!(one_row(&[2, 1], &[1, 2]), found(&[(1, 2), (2, 1)]));
}

/// Misweave 1: using a link whose far end lies above the window's top row. The 4 of the window has another above it.
#[test]
fn what_lies_above_the_window_is_not_looked_at() {
    let answer = one_window(&[4, 4, 5], 3, 1, &[1, 2], 2, 1, 1, 0);
    assert_eq!(answer, found(&[(1, 4), (2, 5)]));
}

/// Misweave 3: testing the pairs without the sizes, so that sheet 4 5 would pass for motif 1 1.
#[test]
fn a_window_with_more_symbols_than_the_pattern_is_no_match() {
    assert_eq!(one_row(&[4, 5], &[1, 1]), clash(3, 0, 1));
}

/// Number 0 is a yarn number like any other, and so is 255.
#[test]
fn the_extreme_symbols_are_symbols() {
    let answer = one_row(&[255, 0, 255], &[0, 255, 0]);
    assert_eq!(answer, found(&[(0, 255), (255, 0)]));
    assert_eq!(one_row(&[0, 0], &[0, 255]), clash(4, 0, 1));
}

#[test]
fn a_pattern_as_large_as_can_be() {
    let mut text = vec![5; 255 * 255];
    let pattern = vec![9; 255 * 255];
    let whole = |text: &[u8]| one_window(text, 255, 255, &pattern, 255, 255, 0, 0);
    assert_eq!(whole(&text), found(&[(9, 5)]));
    text[255 * 255 - 1] = 6;
    assert_eq!(whole(&text), clash(3, 0, 255 * 255 - 1));
}

/// What the operation is lent is written whatever it held.
#[test]
fn lent_buffers_are_written_and_a_refusal_changes_none() {
    let into = |column| {
        let mut bijection = Bijection::from_columns([7; 256], [65535; 256]);
        let mut mismatch = [9; 3];
        let outcome = one_window_into(
            &TEXT,
            2,
            3,
            &PATTERN,
            2,
            2,
            0,
            column,
            &mut bijection,
            &mut mismatch,
        );
        (outcome, mismatch, bijection)
    };
    assert_eq!(into(0), (Ok(()), [0; 3], holding(&[(1, 7), (2, 3)])));
    assert_eq!(into(1), (Ok(()), [3, 0, 1], holding(&[])));
    let refused = Err(Refusal::CornerOutside);
    let untouched = Bijection::from_columns([7; 256], [65535; 256]);
    assert_eq!(into(2), (refused, [9; 3], untouched));
}

/// One input that earns every refusal at once, mended step by step, meets them in document 01's order.
#[test]
fn windows_are_refused_in_order() {
    let window = |cells: usize, rows, pattern: &[u8], height, row, column| {
        one_window(&TEXT[..cells], rows, 3, pattern, height, 2, row, column)
    };
    let six = [1, 1, 2, 1, 2, 1];
    assert_eq!(window(5, 2, &six[..5], 0, 1, 2), Err(Refusal::SideRange));
    assert_eq!(window(5, 256, &six[..5], 3, 1, 2), Err(Refusal::SideRange));
    assert_eq!(window(5, 2, &six[..5], 3, 1, 2), Err(Refusal::CellCount));
    assert_eq!(window(5, 2, &six, 3, 1, 2), Err(Refusal::CellCount));
    assert_eq!(window(6, 2, &six[..5], 3, 1, 2), Err(Refusal::CellCount));
    assert_eq!(window(6, 2, &six, 3, 1, 2), Err(Refusal::TooLarge));
    assert_eq!(window(6, 2, &PATTERN, 2, 1, 2), Err(Refusal::CornerOutside));
    assert_eq!(window(6, 2, &PATTERN, 2, 0, 2), Err(Refusal::CornerOutside));
    assert_eq!(window(6, 2, &PATTERN, 2, 1, 0), Err(Refusal::CornerOutside));
    assert_eq!(window(6, 2, &PATTERN, 2, 0, 1), clash(3, 0, 1));
}

#[test]
fn the_empty_bijection_has_no_pair() {
    assert_eq!(Bijection::empty(), holding(&[]));
    assert_eq!(Bijection::empty().image(0), None);
    assert_eq!(Bijection::empty().preimage(255), None);
}

#[test]
fn pairing() {
    let mut b = Bijection::empty();
    assert_eq!(b.pair(1, 7), Ok(()));
    assert_eq!(b.pair(2, 3), Ok(()));
    let both = holding(&[(1, 7), (2, 3)]);
    assert_eq!(b, both);
    assert_eq!((b.image(1), b.preimage(3)), (Some(7), Some(2)));

    // The same pair again changes nothing.
    assert_eq!(b.pair(1, 7), Ok(()));
    assert_eq!(b.pair(4, 7), Err(Refusal::HasOtherPreimage));
    assert_eq!(b.pair(1, 8), Err(Refusal::HasOtherImage));
    // 12 comes before 13.
    assert_eq!(b.pair(1, 3), Err(Refusal::HasOtherImage));
    assert_eq!(b, both);
}

#[test]
fn inverting() {
    let mut b = holding(&[(1, 7), (2, 3)]);
    assert_eq!(b.invert(), Ok(()));
    assert_eq!(b, holding(&[(7, 1), (3, 2)]));
}

#[test]
fn composing() {
    let mut b = holding(&[(1, 2), (3, 4), (0, 255)]);
    let other = holding(&[(2, 9), (255, 0), (5, 6)]);
    assert_eq!(b.compose(&other), Ok(()));
    assert_eq!(b, holding(&[(1, 9), (0, 0)]));
}

/// Columns that hold a number above 256, or of which one alone gives a pair: 14 comes before 12 and 13, and nothing is
/// changed.
#[test]
fn columns_that_disagree_are_refused() {
    let good = holding(&[(1, 7), (2, 3)]);
    let bad_entries = [
        (0, 9, 257),
        (1, 9, 65535),
        (0, 1, 256),
        (0, 9, 3),
        (1, 8, 1),
    ];
    for (column, place, number) in bad_entries {
        let mut columns = [*good.forward(), *good.backward()];
        columns[column][place] = number;
        let given = Bijection::from_columns(columns[0], columns[1]);
        let disagree = Err(Refusal::ColumnsDisagree);

        let mut b = given.clone();
        assert_eq!(b.pair(1, 3), disagree);
        assert_eq!(b.invert(), disagree);
        assert_eq!(b.compose(&good), disagree);
        assert_eq!(b, given);

        let mut b = good.clone();
        assert_eq!(b.compose(&given), disagree);
        assert_eq!(b, good);
    }
}
