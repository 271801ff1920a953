//! Document 01's drafts and misweaves of the lower library, run on the proved code. Every expected value is typed from
//! document 01 or found by hand; none comes from the brute force.

use colourway::{distinct_counts, strip_links, window_cell, Refusal, Symbols};

/// The first draft's text (sheet), 2 by 3.
const TEXT: [u8; 6] = [7, 7, 3, 3, 7, 7];

/// The first draft's pattern (motif), 2 by 2.
const PATTERN: [u8; 4] = [1, 1, 2, 1];

/// What the buffers hold before an operation.
const NOISE: u16 = 0xA5A5;

#[test]
fn links_of_the_first_draft() {
    let mut links = [NOISE; 6];
    assert_eq!(strip_links(&TEXT, 2, 3, 2, 0, &mut links), Ok(()));
    assert_eq!(links, [0, 1, 0, 2, NOISE, NOISE]);

    let mut links = [NOISE; 4];
    assert_eq!(strip_links(&TEXT, 2, 3, 2, 1, &mut links), Ok(()));
    assert_eq!(links, [0, 0, 2, 1]);
}

#[test]
fn counts_of_the_first_draft() {
    let mut counts = [NOISE; 3];
    assert_eq!(distinct_counts(&TEXT, 2, 3, 2, 2, &mut counts), Ok(()));
    assert_eq!(counts, [2, 2, NOISE]);
}

#[test]
fn symbols_of_the_first_draft() {
    let set = Symbols::of(&PATTERN);
    assert_eq!(set.words(), [0b110, 0, 0, 0]);
    assert_eq!(set.size(), 2);
    assert_eq!(set.lowest(), Some(1));
    assert_eq!(set.without(1).lowest(), Some(2));
    assert_eq!(set.without(1).without(2).lowest(), None);
    assert_eq!(set.without(1).without(2).size(), 0);
}

#[test]
fn window_of_the_first_draft() {
    // The window at corner (0, 1) is 7 3 / 7 7.
    assert_eq!(window_cell(&TEXT, 3, 0, 1, 0, 0), Some(7));
    assert_eq!(window_cell(&TEXT, 3, 0, 1, 0, 1), Some(3));
    assert_eq!(window_cell(&TEXT, 3, 0, 1, 1, 0), Some(7));
    assert_eq!(window_cell(&TEXT, 3, 0, 1, 1, 1), Some(7));
    assert_eq!(window_cell(&TEXT, 3, 0, 1, 2, 0), None);
    assert_eq!(window_cell(&[], 0, 0, 0, 0, 0), None);
}

/// Number 0 is a yarn number like any other, and so is 255.
#[test]
fn the_extreme_symbols_are_symbols() {
    let mut links = [NOISE; 4];
    assert_eq!(
        strip_links(&[0, 255, 0, 255], 2, 2, 2, 0, &mut links),
        Ok(())
    );
    assert_eq!(links, [0, 0, 2, 2]);

    let mut counts = [NOISE; 1];
    assert_eq!(
        distinct_counts(&[0, 255, 0, 255], 2, 2, 2, 2, &mut counts),
        Ok(())
    );
    assert_eq!(counts, [2]);

    assert_eq!(Symbols::of(&[255, 0]).words(), [1, 0, 0, 1 << 63]);
    assert_eq!(Symbols::of(&[255, 0]).without(0).lowest(), Some(255));
}

#[test]
fn sides_of_255_are_accepted() {
    let column = [5; 255];
    let mut links = [NOISE; 255];
    assert_eq!(strip_links(&column, 255, 1, 1, 0, &mut links), Ok(()));
    assert_eq!(links[..3], [0, 1, 1]);
    assert_eq!(strip_links(&column, 1, 255, 255, 0, &mut links), Ok(()));
    assert_eq!(links[..3], [0, 1, 1]);

    let square = vec![5; 255 * 255];
    let mut counts = [NOISE; 2];
    assert_eq!(
        distinct_counts(&square, 255, 255, 255, 255, &mut counts),
        Ok(())
    );
    assert_eq!(counts, [1, NOISE]);
}

/// The sides of a text and a window that are right but for one: 0 and 256 are refused by 2, whichever side has them.
/// The text has as many cells as the bad sides ask for, so that nothing else is wrong with it.
#[test]
fn sides_of_0_and_256_are_refused() {
    for bad in [0, 256] {
        for place in 0..4 {
            let mut sides = [1; 4];
            sides[place] = bad;
            let [rows, columns, height, width] = sides;
            let text = vec![5; rows * columns];
            let mut buffer = [NOISE; 256];
            assert_eq!(
                distinct_counts(&text, rows, columns, height, width, &mut buffer),
                Err(Refusal::SideRange)
            );
            // A strip has no height of its own.
            if place != 2 {
                assert_eq!(
                    strip_links(&text, rows, columns, width, 0, &mut buffer),
                    Err(Refusal::SideRange)
                );
            }
            assert_eq!(buffer, [NOISE; 256]);
        }
    }
}

#[test]
fn a_window_as_large_as_the_text_is_one() {
    let mut counts = [NOISE; 2];
    assert_eq!(distinct_counts(&TEXT, 2, 3, 2, 3, &mut counts), Ok(()));
    assert_eq!(counts, [2, NOISE]);
}

/// One input that earns every refusal at once, mended step by step, meets them in document 01's order.
#[test]
fn refusals_come_in_order() {
    let links = |cells: usize, rows, width, column, room: usize| {
        strip_links(
            &TEXT[..cells],
            rows,
            3,
            width,
            column,
            &mut vec![NOISE; room],
        )
    };
    assert_eq!(links(5, 0, 4, 2, 3), Err(Refusal::SideRange));
    assert_eq!(links(5, 2, 4, 2, 3), Err(Refusal::CellCount));
    assert_eq!(links(6, 2, 4, 2, 3), Err(Refusal::TooLarge));
    assert_eq!(links(6, 2, 2, 2, 3), Err(Refusal::CornerOutside));
    assert_eq!(links(6, 2, 2, 1, 3), Err(Refusal::LinksBufferShort));
    assert_eq!(links(6, 2, 2, 1, 4), Ok(()));

    let counts = |cells: usize, rows, height, width, room: usize| {
        distinct_counts(
            &TEXT[..cells],
            rows,
            3,
            height,
            width,
            &mut vec![NOISE; room],
        )
    };
    assert_eq!(counts(5, 256, 3, 2, 1), Err(Refusal::SideRange));
    assert_eq!(counts(5, 2, 3, 2, 1), Err(Refusal::CellCount));
    assert_eq!(counts(6, 2, 3, 2, 1), Err(Refusal::TooLarge));
    assert_eq!(counts(6, 2, 2, 4, 1), Err(Refusal::TooLarge));
    assert_eq!(counts(6, 2, 2, 2, 1), Err(Refusal::WindowBufferShort));
    assert_eq!(counts(6, 2, 2, 2, 2), Ok(()));
}

/// Misweave 2: linking along the whole row of the text, so that a pair leaves the strip.
#[test]
fn a_link_stays_in_its_strip() {
    let mut links = [NOISE; 2];
    assert_eq!(strip_links(&[1, 2, 2, 1], 2, 2, 1, 0, &mut links), Ok(()));
    assert_eq!(links, [0, 0]);
}

/// Misweave 4: carrying tallies from the foot of one strip to the head of the next.
#[test]
fn counts_begin_afresh_in_the_next_strip() {
    let mut counts = [NOISE; 2];
    assert_eq!(
        distinct_counts(&[1, 2, 1, 2], 2, 2, 2, 1, &mut counts),
        Ok(())
    );
    assert_eq!(counts, [1, 1]);
}

/// Misweave 5: lowering the size when a tally falls to 1 and not to 0.
#[test]
fn a_symbol_is_gone_when_its_last_occurrence_is() {
    let mut counts = [NOISE; 3];
    assert_eq!(
        distinct_counts(&[5, 5, 5, 6], 4, 1, 2, 1, &mut counts),
        Ok(())
    );
    assert_eq!(counts, [1, 1, 2]);
}

#[test]
fn numbers_and_refusals_correspond() {
    let numbers = Refusal::ALL.map(Refusal::number);
    let expected: [u8; 17] = std::array::from_fn(|place| place as u8 + 1);
    assert_eq!(numbers, expected);
    for number in 0..=255 {
        let has_it = (1..=17).contains(&number);
        let back = Refusal::from_number(number).map(Refusal::number);
        assert_eq!(back, has_it.then_some(number));
    }
    assert_eq!(Refusal::from_number(1), Some(Refusal::SizesMissing));
    assert_eq!(Refusal::from_number(5), Some(Refusal::CornerOutside));
    assert_eq!(Refusal::from_number(8), Some(Refusal::TooManyCells));
    assert_eq!(Refusal::from_number(16), Some(Refusal::FlagsFalse));
    assert_eq!(Refusal::from_number(17), Some(Refusal::ScaleUnfit));
    assert_eq!(Refusal::SideRange.to_string(), "refused 2");
}
