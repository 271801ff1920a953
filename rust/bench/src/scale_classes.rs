//! The classes of the searches at scales: texts and small patterns, each with scales.

use crate::classes::{CHECKERBOARD, COLUMNS, CONSTANT, HORIZONTAL, PERIODIC, ROWS, VERTICAL};
use crate::input::{Class, Input};
use crate::texts::{random, random_apart, regular, Defect, Sides};

/// The scales at which a pattern is measured, where they fit, beside the largest.
const SCALES: [usize; 4] = [1, 2, 3, 5];

/// Patterns that are small, large, narrow and low before they are enlarged.
const SIDES: [Sides; 5] = [(4, 4), (16, 16), (50, 50), (16, 2), (2, 16)];

/// A class at a scale.
pub struct Scaled {
    pub name: String,
    /// With the pattern as it is.
    pub input: Input,
    pub scale: usize,
}

impl Input {
    /// The largest scale that fits.
    pub fn largest_scale(&self) -> usize {
        (self.rows / self.height).min(self.columns / self.width)
    }

    /// The same text with the enlarged pattern, stored.
    pub fn enlarged(&self, scale: usize) -> Input {
        let [height, width] = [self.height, self.width].map(|side| scale * side);
        let cell = |position: usize| {
            let (i, j) = (position / width, position % width);
            self.pattern[i / scale * self.width + j / scale]
        };
        Input {
            text: self.text.clone(),
            pattern: (0..height * width).map(cell).collect(),
            height,
            width,
            ..*self
        }
    }

    /// The text with each cell drawn as a square too, as far as it goes, and the same pattern.
    fn coarse(&self, scale: usize) -> Input {
        let columns = self.columns;
        let cell = |position: usize| {
            let (i, j) = (position / columns, position % columns);
            self.text[i / scale * columns + j / scale]
        };
        Input {
            text: (0..self.text.len()).map(cell).collect(),
            pattern: self.pattern.clone(),
            ..*self
        }
    }
}

/// The texts with patterns of these sides.
fn bases(sides: Sides) -> Vec<Class> {
    let rules = [
        CONSTANT,
        PERIODIC,
        VERTICAL,
        HORIZONTAL,
        CHECKERBOARD,
        ROWS,
        COLUMNS,
    ];
    let of_rule = |(name, rule)| regular(name, rule, Defect::Nowhere, sides);
    let mut all: Vec<Class> = rules.map(of_rule).into();
    for (name, rule) in [CONSTANT, VERTICAL] {
        all.push(regular(name, rule, Defect::LastOfPattern, sides));
    }
    all.extend([2, 16, 256].map(|symbols| random(symbols, sides)));
    all.push(random_apart(2, sides));
    all
}

/// A class at a scale, with its text as it is and with a text that is coarse itself: in that the enlarged pattern may
/// stand, in the other it mostly does not. The two are the same at scale 1.
fn at_scale(base: &Class, scale: usize) -> Vec<Scaled> {
    let scaled = |input, of_text: &str| Scaled {
        name: format!("{}, scale {scale}{of_text}", base.name),
        input,
        scale,
    };
    let mut both = vec![scaled(base.input.coarse(1), "")];
    let coarse = base.input.coarse(scale);
    if coarse.text != base.input.text {
        both.push(scaled(coarse, ", coarse text"));
    }
    both
}

/// One symbol, which fits at every scale up to 255.
fn one_cell() -> [Class; 2] {
    let (name, rule) = CONSTANT;
    [
        regular(name, rule, Defect::Nowhere, (1, 1)),
        random(2, (1, 1)),
    ]
}

/// Every class at the scales of the table and at its largest.
pub fn scaled() -> impl Iterator<Item = Scaled> {
    let all = one_cell()
        .into_iter()
        .chain(SIDES.into_iter().flat_map(bases));
    all.flat_map(|base| {
        let largest = base.input.largest_scale();
        let mut scales: Vec<usize> = SCALES.into_iter().filter(|&k| k < largest).collect();
        scales.push(largest);
        let classes = scales.into_iter().map(|scale| at_scale(&base, scale));
        classes.flatten().collect::<Vec<Scaled>>()
    })
}

/// The classes that are measured at every scale: large patterns, which have few, and two small ones, which have 63.
pub fn at_every_scale() -> Vec<Class> {
    let mut all = bases((16, 16));
    all.extend(bases((50, 50)));
    all.push(regular(CONSTANT.0, CONSTANT.1, Defect::Nowhere, (4, 4)));
    all.push(regular(VERTICAL.0, VERTICAL.1, Defect::Nowhere, (4, 4)));
    all
}
