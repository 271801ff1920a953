//! The count: document 01's first draft without its listing, and what it refuses.

use crate::{assert_first_draft, bad_sides, Lent, Shaped, NOISE, PATTERN, TEXT, TOTALS};
use colourway::{count, count_into, CountBuffers, Refusal};

impl Lent {
    /// All but the listing.
    fn lend_to_count(&mut self) -> CountBuffers<'_> {
        CountBuffers {
            links: &mut self.links,
            counts: &mut self.counts,
            flags: &mut self.flags,
        }
    }
}

/// The totals of a count with room for everything, as found, refused and length.
fn counted(text: Shaped, pattern: Shaped) -> [usize; 3] {
    let ((text, rows, columns), (pattern, height, width)) = (text, pattern);
    let mut lent = Lent::of(65_025, 65_025, 65_025, 0);
    let buffers = lent.lend_to_count();
    let totals = count(text, rows, columns, pattern, height, width, buffers);
    let totals = totals.expect("an accepted count");
    [totals.found, totals.refused, totals.length]
}

/// The same for a text and a pattern of one row each.
fn one_row(text: &[u8], pattern: &[u8]) -> [usize; 3] {
    counted((text, 1, text.len()), (pattern, 1, pattern.len()))
}

#[test]
fn count_of_the_first_draft() {
    let mut lent = Lent::of(6, 3, 3, 0);
    let totals = count(&TEXT, 2, 3, &PATTERN, 2, 2, lent.lend_to_count());
    assert_eq!(totals, Ok(TOTALS));
    assert_first_draft(&lent);
}

/// The closing alone has 5 bytes, a refused window 7, a found one 3 and 3 for each symbol of the pattern.
#[test]
fn counts_of_one_row_drafts() {
    assert_eq!(one_row(&[5], &[5]), [1, 0, 6 + 5]);
    assert_eq!(one_row(&[4, 4], &[1, 2]), [0, 1, 7 + 5]);
    assert_eq!(one_row(&[4, 5], &[1, 1]), [0, 1, 7 + 5]);
    assert_eq!(one_row(&[2, 1], &[1, 2]), [1, 0, 9 + 5]);
    assert_eq!(one_row(&[4, 5, 5], &[1, 2]), [1, 1, 9 + 7 + 5]);
}

#[test]
fn counts_in_texts_of_255_by_255() {
    let text = vec![5; 255 * 255];
    let found = counted((&text, 255, 255), (&[9], 1, 1));
    assert_eq!(found, [65_025, 0, 65_025 * 6 + 5]);
    let refused = counted((&text, 255, 255), (&[1, 2], 1, 2));
    assert_eq!(refused, [0, 64_770, 64_770 * 7 + 5]);
}

/// The buffers have room, so that nothing else is wrong.
#[test]
fn count_refuses_sides_of_0_and_256() {
    for [rows, columns, height, width] in bad_sides() {
        let (text, pattern) = (vec![5; rows * columns], vec![5; height * width]);
        let mut lent = Lent::of(256, 256, 256, 0);
        let buffers = lent.lend_to_count();
        let outcome = count(&text, rows, columns, &pattern, height, width, buffers);
        assert_eq!(outcome, Err(Refusal::SideRange));
        assert_eq!(lent, Lent::of(256, 256, 256, 0));
    }
}

/// One input that earns every refusal at once, mended step by step, meets them in order, and changes nothing before the
/// last step. There is no 11: a count is lent no listing.
#[test]
fn count_refuses_in_order() {
    let untouched = [usize::from(NOISE); 3];
    let number = |cells: usize, rows, pattern_cells: usize, height, mut lent: Lent| {
        let before = lent.clone();
        let mut totals = untouched;
        let text = &TEXT[..cells];
        let pattern = &[1, 1, 2, 1, 2, 1][..pattern_cells];
        let buffers = lent.lend_to_count();
        let outcome = count_into(text, rows, 3, pattern, height, 2, buffers, &mut totals);
        assert!(outcome.is_ok() || lent == before);
        (outcome.map_or_else(Refusal::number, |()| 0), totals)
    };
    for bad in [0, 256, usize::MAX] {
        assert_eq!(number(5, 2, 5, bad, Lent::of(3, 1, 1, 0)), (2, untouched));
        assert_eq!(number(5, bad, 5, 3, Lent::of(3, 1, 1, 0)), (2, untouched));
    }
    assert_eq!(number(5, 2, 6, 3, Lent::of(3, 1, 1, 0)), (3, untouched));
    assert_eq!(number(6, 2, 5, 3, Lent::of(3, 1, 1, 0)), (3, untouched));
    assert_eq!(number(6, 2, 6, 3, Lent::of(3, 1, 1, 0)), (4, untouched));
    assert_eq!(number(6, 2, 4, 2, Lent::of(3, 1, 1, 0)), (9, untouched));
    assert_eq!(number(6, 2, 4, 2, Lent::of(4, 2, 1, 0)), (10, untouched));
    assert_eq!(number(6, 2, 4, 2, Lent::of(4, 1, 2, 0)), (10, untouched));
    assert_eq!(number(6, 2, 4, 2, Lent::of(4, 2, 2, 0)), (0, [1, 1, 21]));
}
