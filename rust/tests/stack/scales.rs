//! The searches at scales.

use crate::{lent, on_a_small_stack, SIDE};
use colourway::{search_scaled, search_scales, Refusal, Totals};

/// A pattern with its height and width.
type Shaped = (Vec<u8>, usize, usize);

/// A search at a scale on a small stack.
fn searched_at(text: Vec<u8>, (pattern, height, width): Shaped, scale: usize) -> Totals {
    on_a_small_stack(move || {
        let mut lent = lent(1 << 20);
        let buffers = lent.for_search();
        search_scaled(&text, SIDE, SIDE, &pattern, height, width, scale, buffers).expect("accepted")
    })
}

/// A search at every scale on a small stack, with so much room for its listings.
fn searched_at_all(text: Vec<u8>, (pattern, height, width): Shaped, room: usize) -> Totals {
    on_a_small_stack(move || {
        let mut lent = lent(room);
        let buffers = lent.for_search();
        search_scales(&text, SIDE, SIDE, &pattern, height, width, buffers).expect("accepted")
    })
}

#[test]
fn searches_of_the_largest_texts_at_a_scale() {
    let constant = vec![5; SIDE * SIDE];
    let windows = |side: usize| (SIDE + 1 - side) * (SIDE + 1 - side);
    for (side, scale) in [
        (1, 1),
        (1, 2),
        (1, 128),
        (1, SIDE),
        (64, 3),
        (127, 2),
        (SIDE, 1),
    ] {
        let pattern = (vec![9; side * side], side, side);
        let totals = searched_at(constant.clone(), pattern, scale);
        assert_eq!((totals.found, totals.refused), (windows(side * scale), 0));
    }
    let mut last_differs = vec![9; 64 * 64];
    last_differs[64 * 64 - 1] = 8;
    let totals = searched_at(constant, (last_differs, 64, 64), 2);
    assert_eq!((totals.found, totals.refused), (0, windows(128)));
    let stripes: Vec<u8> = (0..SIDE * SIDE).map(|k| (k % SIDE / 2 % 2) as u8).collect();
    let totals = searched_at(stripes, (vec![1, 2, 1, 2], 2, 2), 2);
    assert_eq!(totals.found, 252 * 126);
}

#[test]
fn searches_of_the_largest_texts_at_every_scale() {
    let constant = vec![5; SIDE * SIDE];
    let windows = |side: usize| (SIDE + 1 - side) * (SIDE + 1 - side);
    for side in [64, 100, 127, 128, SIDE] {
        let pattern = (vec![9; side * side], side, side);
        let totals = searched_at_all(constant.clone(), pattern, 1 << 20);
        let all: usize = (1..=SIDE / side).map(|scale| windows(side * scale)).sum();
        assert_eq!((totals.found, totals.refused), (all, 0));
    }
    // Every scale from 1 to 127.
    let mixed = (vec![1, 2, 3, 4], 2, 2);
    let totals = searched_at_all(constant, mixed, 1 << 25);
    let all: usize = (1..=127).map(|scale| windows(2 * scale)).sum();
    assert_eq!((totals.found, totals.refused), (0, all));
}

#[test]
fn refused_searches_at_scales() {
    let refusals = on_a_small_stack(|| {
        let mut lent = lent(4);
        let text = vec![5; SIDE * SIDE];
        let mut at = |rows, scale| {
            search_scaled(&text, rows, SIDE, &[1], 1, 1, scale, lent.for_search())
                .map_err(|why| why.refusal())
                .err()
        };
        let at_one = [at(0, 1), at(SIDE, 0), at(SIDE, SIDE + 1), at(SIDE, 200)];
        let mut at_all = |rows, pattern: &[u8], height| {
            search_scales(&text, rows, SIDE, pattern, height, 1, lent.for_search())
                .map_err(|why| why.refusal())
                .err()
        };
        let at_every = [at_all(0, &[1], 1), at_all(SIDE, &[1; SIDE], SIDE)];
        [&at_one[..], &at_every].concat()
    });
    let expected = [
        Refusal::SideRange,
        Refusal::ScaleUnfit,
        Refusal::ScaleUnfit,
        Refusal::ListingBufferShort,
        Refusal::SideRange,
        Refusal::ListingBufferShort,
    ];
    assert_eq!(refusals, expected.map(Some));
}
