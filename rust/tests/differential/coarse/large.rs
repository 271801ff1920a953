//! Larger texts for the searches at scales. The library's own search is fast enough for them, and the brute force is
//! not: so the listing, whose length nobody has told yet, always has room.

use super::{coarse_within, enlarged_cells, scale_that_fits, Scaled};
use crate::lent::{lend_nearly, Input};
use crate::random::Random;
use crate::texts::TextAndPattern;

/// The sides of a pattern in a text of 255 by 255 cells, with a scale.
pub const LARGE_SCALES: [(usize, usize, usize); 10] = [
    (1, 1, 2),
    (1, 1, 250),
    (1, 1, 255),
    (2, 2, 2),
    (2, 3, 5),
    (1, 5, 51),
    (5, 1, 51),
    (16, 16, 2),
    (16, 16, 15),
    (120, 1, 2),
];

/// The longest side of a middle text before it gets its margin.
const MIDDLE: usize = 100;

/// What is lent for a search at a scale; every other time one of the buffers is one entry short, but for the listing.
fn lent_at(random: &mut Random, given: TextAndPattern, scale: usize) -> Scaled {
    let enlarged = given.enlarged(scale);
    let [links, windows] = [enlarged.rows * enlarged.width, enlarged.windows()];
    let needed = [links, windows, windows, enlarged.longest_listing() + 1];
    let input = lend_nearly(random, given, needed);
    Scaled { input, scale }
}

/// A text of nearly 255 by 255 cells, enlarged itself.
pub fn large_scaled_input(random: &mut Random) -> Scaled {
    let (height, width, scale) = random.choose(&LARGE_SCALES);
    let side = 255 / scale;
    let mut given = TextAndPattern::make(random, [side, side, height, width]);
    given.text = enlarged_cells(&given.text, side, scale);
    [given.rows, given.columns] = [side * scale; 2];
    if random.one_in(4) {
        given.change_one_cell(random);
    }
    lent_at(random, given, scale)
}

/// A text of up to about 100 by 100 cells.
pub fn middle_scaled_input(random: &mut Random) -> Scaled {
    let (given, k) = coarse_within(random, MIDDLE);
    let scale = scale_that_fits(random, &given, k);
    lent_at(random, given, scale)
}

/// The same for a search at every scale.
pub fn middle_scales_input(random: &mut Random) -> Input {
    let (given, _) = coarse_within(random, MIDDLE);
    let [links, windows] = [
        given.rows * given.largest_scale() * given.width,
        given.windows(),
    ];
    let lengths = given.at_every_scale().map(|each| each.longest_listing());
    let needed = [links, windows, windows, lengths.sum::<usize>() + 1];
    lend_nearly(random, given, needed)
}
