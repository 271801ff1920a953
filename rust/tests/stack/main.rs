//! Every operation runs on a small stack: each is called on the largest inputs and on refused ones in a thread of 64
//! KiB. An operation that needed more would end the whole test program by a fault.

mod scales;

use colourway::{
    check, count, distinct_counts, list, one_window, read, records, search, strip_links,
    window_cell, Bijection, Buffers, CountBuffers, Refusal, Symbols,
};
use std::thread::Builder;

const SMALL: usize = 64 * 1024;
const SIDE: usize = 255;

/// Runs the work in a thread of that stack, and hands on what it answers.
fn on_a_small_stack<T: Send + 'static>(work: impl FnOnce() -> T + Send + 'static) -> T {
    let thread = Builder::new()
        .stack_size(SMALL)
        .spawn(work)
        .expect("a thread");
    thread.join().expect("an answer")
}

/// The lent buffers of a search of `SIDE` by `SIDE`, long enough for every pattern.
struct Lent {
    links: Vec<u16>,
    counts: Vec<u16>,
    flags: Vec<u8>,
    listing: Vec<u8>,
}

fn lent(listing: usize) -> Lent {
    Lent {
        links: vec![7; SIDE * SIDE],
        counts: vec![7; SIDE * SIDE],
        flags: vec![7; SIDE * SIDE],
        listing: vec![7; listing],
    }
}

impl Lent {
    fn for_search(&mut self) -> Buffers<'_> {
        Buffers {
            links: &mut self.links,
            counts: &mut self.counts,
            flags: &mut self.flags,
            listing: &mut self.listing,
        }
    }

    fn for_count(&mut self) -> CountBuffers<'_> {
        CountBuffers {
            links: &mut self.links,
            counts: &mut self.counts,
            flags: &mut self.flags,
        }
    }
}

/// Found and refused of a search on a small stack.
fn searched(text: Vec<u8>, pattern: Vec<u8>, height: usize, width: usize) -> (usize, usize) {
    on_a_small_stack(move || {
        let mut lent = lent(1 << 20);
        let totals = search(
            &text,
            SIDE,
            SIDE,
            &pattern,
            height,
            width,
            lent.for_search(),
        )
        .expect("accepted");
        let listing = &lent.listing[..totals.length];
        let checked = check(&text, SIDE, SIDE, &pattern, height, width, listing).expect("kept");
        assert_eq!(
            (checked.found, checked.refused),
            (totals.found, totals.refused)
        );
        assert_eq!(
            records(listing).count(),
            listing_records(totals.found, totals.refused, &pattern)
        );
        (totals.found, totals.refused)
    })
}

/// How many records a listing has: a found window one and a pair a symbol, a refused one one, and the closing.
fn listing_records(found: usize, refused: usize, pattern: &[u8]) -> usize {
    let symbols = Symbols::of(pattern).size() as usize;
    found * (1 + symbols) + refused + 1
}

#[test]
fn searches_and_checks_of_the_largest_texts() {
    let windows = |height: usize, width: usize| (SIDE + 1 - height) * (SIDE + 1 - width);
    let constant = vec![5; SIDE * SIDE];
    assert_eq!(
        searched(constant.clone(), vec![9; 128 * 128], 128, 128),
        (windows(128, 128), 0)
    );
    assert_eq!(
        searched(constant.clone(), vec![9; SIDE * SIDE], SIDE, SIDE),
        (1, 0)
    );
    let mut last_differs = vec![9; 128 * 128];
    last_differs[128 * 128 - 1] = 8;
    assert_eq!(
        searched(constant, last_differs, 128, 128),
        (0, windows(128, 128))
    );
    let stripes: Vec<u8> = (0..SIDE * SIDE).map(|k| (k % SIDE % 2) as u8).collect();
    assert_eq!(
        searched(stripes, vec![1, 2, 1, 2], 2, 2),
        (windows(2, 2), 0)
    );
}

#[test]
fn refused_searches() {
    let (sides, short) = on_a_small_stack(|| {
        let mut lent = lent(4);
        let sides = search(&[1], 0, 1, &[1], 1, 1, lent.for_search()).map_err(|why| why.refusal());
        let text = vec![5; SIDE * SIDE];
        let short =
            search(&text, SIDE, SIDE, &[1], 1, 1, lent.for_search()).map_err(|why| why.refusal());
        (sides.err(), short.err())
    });
    assert_eq!(sides, Some(Refusal::SideRange));
    assert_eq!(short, Some(Refusal::ListingBufferShort));
}

/// Found and refused of a count on a small stack, and of the list that follows it there.
fn counted_and_listed(
    text: Vec<u8>,
    pattern: Vec<u8>,
    height: usize,
    width: usize,
) -> (usize, usize) {
    on_a_small_stack(move || {
        let mut lent = lent(0);
        let totals =
            count(&text, SIDE, SIDE, &pattern, height, width, lent.for_count()).expect("accepted");
        let mut listing = vec![7; totals.length];
        let listed = list(
            &text,
            SIDE,
            SIDE,
            &pattern,
            height,
            width,
            &lent.flags,
            &mut listing,
        );
        assert_eq!(listed, Ok(totals));
        assert_eq!(
            records(&listing).count(),
            listing_records(totals.found, totals.refused, &pattern)
        );
        (totals.found, totals.refused)
    })
}

#[test]
fn counts_and_lists_of_the_largest_texts() {
    let windows = |height: usize, width: usize| (SIDE + 1 - height) * (SIDE + 1 - width);
    let constant = vec![5; SIDE * SIDE];
    assert_eq!(
        counted_and_listed(constant.clone(), vec![9], 1, 1),
        (windows(1, 1), 0)
    );
    assert_eq!(
        counted_and_listed(constant.clone(), vec![9; 128 * 128], 128, 128),
        (windows(128, 128), 0)
    );
    assert_eq!(
        counted_and_listed(constant.clone(), vec![9; SIDE * SIDE], SIDE, SIDE),
        (1, 0)
    );
    assert_eq!(
        counted_and_listed(constant, vec![8, 9], 2, 1),
        (0, windows(2, 1))
    );
    let stripes: Vec<u8> = (0..SIDE * SIDE).map(|k| (k % SIDE % 2) as u8).collect();
    assert_eq!(
        counted_and_listed(stripes, vec![1, 2, 1, 2], 2, 2),
        (windows(2, 2), 0)
    );
}

#[test]
fn refused_counts_and_lists() {
    let refusals = on_a_small_stack(|| {
        let mut lent = lent(0);
        let text = vec![5; SIDE * SIDE];
        let whole = |flags: &[u8]| {
            list(&text, SIDE, SIDE, &[1], 1, 1, flags, &mut []).map_err(|why| why.refusal())
        };
        let of_count = count(&[1], 0, 1, &[1], 1, 1, lent.for_count());
        let of_list = list(&[1], 0, 1, &[1], 1, 1, &[1], &mut []).map_err(|why| why.refusal());
        let answers = [
            of_count,
            of_list,
            whole(&lent.flags),
            whole(&vec![1; SIDE * SIDE]),
        ];
        answers.map(|answer| answer.err())
    });
    let expected = [
        Refusal::SideRange,
        Refusal::SideRange,
        Refusal::FlagsFalse,
        Refusal::ListingBufferShort,
    ];
    assert_eq!(refusals, expected.map(Some));
}

#[test]
fn the_other_operations() {
    on_a_small_stack(|| {
        let text = vec![5; SIDE * SIDE];
        let mut links = vec![0; SIDE * SIDE];
        assert_eq!(strip_links(&text, SIDE, SIDE, SIDE, 0, &mut links), Ok(()));
        assert_eq!(links[1], 1);
        let mut counts = vec![0; SIDE * SIDE];
        assert_eq!(
            distinct_counts(&text, SIDE, SIDE, 128, 128, &mut counts),
            Ok(())
        );
        assert_eq!(counts[0], 1);
        assert_eq!(window_cell(&text, 255, 0, 0, 254, 254), Some(5));
        assert_eq!(Symbols::of(&text).size(), 1);
        let answer = one_window(&text, SIDE, SIDE, &vec![9; SIDE * SIDE], SIDE, SIDE, 0, 0);
        assert!(answer.is_ok());
        assert_eq!(
            one_window(&text, SIDE, SIDE, &[9], 1, 1, SIDE, 0).err(),
            Some(Refusal::CornerOutside)
        );
        assert!(read(&[1, 0, 0], 0).is_ok());
        let mut bijection = Bijection::empty();
        assert_eq!(bijection.pair(1, 2), Ok(()));
        let other = bijection.clone();
        assert_eq!(bijection.compose(&other), Ok(()));
        assert_eq!(bijection.invert(), Ok(()));
    });
}
