//! Texts and patterns for the searches at scales. Many texts are enlarged themselves, so that enlarged patterns match.

pub mod large;

use crate::lent::Input;
use crate::number;
use crate::random::{Random, SEED};
use crate::texts::TextAndPattern;
use brute::Buffers;
use std::collections::BTreeMap;
use std::fmt::Debug;

/// The longest side of a text before it gets its margin: the brute force looks at all windows at all scales.
const LONGEST: usize = 12;

/// The number, the totals and the buffers.
pub type Answer = (u8, [usize; 3], Buffers);

/// Each cell as `k` by `k` cells: cell (i, j) is cell (i / k, j / k) of these, whose rows have this width.
fn enlarged_cells(cells: &[u8], width: usize, k: usize) -> Vec<u8> {
    let rows = cells.len() / width * k;
    let places = (0..rows).flat_map(|i| (0..width * k).map(move |j| (i, j)));
    places.map(|(i, j)| cells[i / k * width + j / k]).collect()
}

impl TextAndPattern {
    /// The same text with the enlarged pattern, stored.
    pub fn enlarged(&self, k: usize) -> TextAndPattern {
        TextAndPattern {
            pattern: enlarged_cells(&self.pattern, self.width, k),
            height: k * self.height,
            width: k * self.width,
            ..self.clone()
        }
    }

    /// The largest scale that fits; 0 where none does.
    pub fn largest_scale(&self) -> usize {
        (self.rows / self.height).min(self.columns / self.width)
    }

    /// The stored enlargements at all scales that fit, smallest first.
    pub fn at_every_scale(&self) -> impl Iterator<Item = TextAndPattern> + '_ {
        (1..=self.largest_scale()).map(|k| self.enlarged(k))
    }

    /// How many entries a search at every scale needs of links, counts, flags and listing.
    pub fn needed_at_every_scale(&self) -> [usize; 4] {
        let windows = self.windows();
        let links = self.rows * self.largest_scale() * self.width;
        let lengths = self.at_every_scale().map(|each| each.listing_length());
        [links, windows, windows, lengths.sum()]
    }

    /// Enlarges the text, and draws up to three more rows and columns around it from its own symbols.
    fn enlarge_text(&mut self, random: &mut Random, k: usize) {
        let cells = enlarged_cells(&self.text, self.columns, k);
        let (rows, columns) = (k * self.rows, k * self.columns);
        let margin = k.min(4) - 1;
        let [top, bottom, left, right] = [(); 4].map(|()| random.between(0, margin));
        self.rows = top + rows + bottom;
        self.columns = left + columns + right;
        self.text = (0..self.rows * self.columns)
            .map(|_| random.choose(&cells))
            .collect();
        for (i, row) in cells.chunks(columns).enumerate() {
            let first = (top + i) * self.columns + left;
            self.text[first..first + columns].copy_from_slice(row);
        }
    }
}

/// A text that is enlarged at a scale, and a pattern that fits at it; with the scale. Up to its margin the text has
/// sides of up to this length.
fn coarse_within(random: &mut Random, longest: usize) -> (TextAndPattern, usize) {
    let k = random.choose(&[1, 1, 1, 2, 2, 2, 3, 3, 4, 6, 12]);
    let [rows, columns] = [(); 2].map(|()| random.between(1, longest / k));
    // More often small ones, which fit at several scales.
    let [height, width] = [rows, columns].map(|side| {
        let most = random.between(1, side);
        random.between(1, most)
    });
    let mut given = TextAndPattern::make(random, [rows, columns, height, width]);
    given.enlarge_text(random, k);
    if random.one_in(4) {
        given.change_one_cell(random);
    }
    (given, k)
}

/// A scale that fits: mostly that of the text.
fn scale_that_fits(random: &mut Random, given: &TextAndPattern, k: usize) -> usize {
    let largest = given.largest_scale();
    match random.below(8) {
        0 => 1,
        1 => largest,
        2 => random.between(1, largest),
        _ => k,
    }
}

/// A scale that does not fit: also one whose product with a side, cut to fewer bits, would fit.
fn scale_that_does_not_fit(random: &mut Random, given: &TextAndPattern, k: usize) -> usize {
    let largest = given.largest_scale();
    // Times the height or the width it is just above 2 to the 64th, or 0 where that side is 1.
    let wrapping = |side: usize| (usize::MAX / side).wrapping_add(1);
    random.choose(&[
        0,
        0,
        largest + 1,
        largest + 1,
        largest + 2,
        given.rows.max(given.columns) + 1,
        256 + k,
        65_536 + k,
        (1 << 32) + k,
        1 << 63,
        wrapping(given.height),
        wrapping(given.width),
        usize::MAX,
    ])
}

/// A text and a pattern, what is lent, and the scale that is asked for.
#[derive(Debug)]
pub struct Scaled {
    pub input: Input,
    pub scale: usize,
}

impl Scaled {
    /// Lends buffers for the enlarged pattern, and hands over the pattern as it is.
    fn lend(
        random: &mut Random,
        given: TextAndPattern,
        scale: usize,
        room: fn(&mut Random, usize) -> usize,
    ) -> Scaled {
        let needed = given.enlarged(scale).needed();
        let input = Input::lend(random, given, needed, room);
        Scaled { input, scale }
    }
}

/// An input that is good, or, as often, spoilt and lent buffers that may be too short.
pub fn scaled_input(random: &mut Random) -> Scaled {
    let (given, k) = coarse_within(random, LONGEST);
    let scale = scale_that_fits(random, &given, k);
    if random.one_in(2) {
        return Scaled::lend(random, given, scale, Random::enough);
    }
    let mut scaled = Scaled::lend(random, given, scale, Random::room);
    if random.one_in(5) {
        scaled.scale = scale_that_does_not_fit(random, &scaled.input.given, k);
    }
    scaled.input.given.spoil(random);
    scaled
}

/// The same for a search at every scale.
pub fn scales_input(random: &mut Random) -> Input {
    let (given, _) = coarse_within(random, LONGEST);
    let needed = given.needed_at_every_scale();
    if random.one_in(2) {
        return Input::lend(random, given, needed, Random::enough);
    }
    let mut input = Input::lend(random, given, needed, Random::room);
    if random.one_in(8) {
        // Room for the listings of some scales, and not of all.
        let some = random.between(0, needed[3]);
        input.lent.listing = random.bytes(some);
    }
    input.given.spoil(random);
    input
}

/// Fails unless two ways to an answer agree on that many inputs, and counts these by what `kind` makes of them.
pub fn agree<I: Debug, A: PartialEq + Debug, Kind: Ord>(
    (name, cases): (&str, u64),
    input: fn(&mut Random) -> I,
    [one, other]: [fn(&I) -> A; 2],
    kind: impl Fn(&I, &A) -> Kind,
) -> BTreeMap<Kind, u64> {
    let mut met = BTreeMap::new();
    for case in 0..cases {
        let input = input(&mut Random::of_case(name, case));
        let [first, second] = [one(&input), other(&input)];
        assert!(
            first == second,
            "{name}: seed {SEED:#x}, case {case}\n  input: {input:?}\n  one: {first:?}\n  other: {second:?}"
        );
        *met.entry(kind(&input, &first)).or_insert(0) += 1;
    }
    met
}

/// The number of the library's own search where it is 2 or 3: these two are the same at any scale.
pub fn cells_refusal(given: &TextAndPattern) -> Option<u8> {
    let buffers = colourway::Buffers {
        links: &mut [],
        counts: &mut [],
        flags: &mut [],
        listing: &mut [],
    };
    let refusal = number(call!(colourway::search_into, given, buffers, &mut [0; 3]));
    [2, 3].contains(&refusal).then_some(refusal)
}
