//! How texts and patterns are made: drawn at random, or by a rule of row and column.

use crate::input::{Class, Input, Kind};

/// The rows and the columns of every text.
pub const SIDE: usize = 255;

/// What is added to a text's symbols, so that they are not the pattern's and not all small.
const TEXT_SHIFT: usize = 150;
const PATTERN_SHIFT: usize = 3;

/// A pattern's height and width.
pub type Sides = (usize, usize);

/// Which symbol stands in a row and a column, before it is shifted.
pub type Rule = fn(usize, usize) -> usize;

/// The cells of a rule, shifted.
pub fn drawn(rule: Rule, (rows, columns): Sides, shift: usize) -> Vec<u8> {
    let cells = (0..rows).flat_map(|i| (0..columns).map(move |j| (i, j)));
    cells.map(|(i, j)| (rule(i, j) + shift) as u8).collect()
}

/// Which cell is out of line, so that windows agree for long and do not match.
#[derive(Clone, Copy)]
pub enum Defect {
    Nowhere,
    /// The pattern's last cell: every window that agrees does so up to there.
    LastOfPattern,
    /// The text's middle cell: the windows around it are spoiled, the others are not.
    MiddleOfText,
}

impl Defect {
    /// What a class's name says of it.
    pub fn said(self) -> &'static str {
        match self {
            Defect::Nowhere => "",
            Defect::LastOfPattern => ", last cell different",
            Defect::MiddleOfText => ", a cell of the text different",
        }
    }
}

/// Gives a cell another symbol, where it can one that stands beside it or above it: then the distinct counts stay what
/// they were, and only a comparison of cells tells.
pub fn disturb(cells: &mut [u8], columns: usize, position: usize) {
    let own = cells[position];
    let left = position.checked_sub(1).map(|p| cells[p]);
    let above = position.checked_sub(columns).map(|p| cells[p]);
    let near = [left, above].into_iter().flatten().find(|&x| x != own);
    cells[position] = near.unwrap_or(own.wrapping_add(1));
}

/// A text of 255 by 255 cells with a pattern.
pub fn class(
    name: String,
    kind: Kind,
    text: Vec<u8>,
    pattern: Vec<u8>,
    (height, width): Sides,
) -> Class {
    let name = format!("{name}, {height} by {width}");
    let input = Input {
        text,
        rows: SIDE,
        columns: SIDE,
        pattern,
        height,
        width,
    };
    Class { name, kind, input }
}

/// A text by one rule and a pattern by another, in other symbols.
pub fn by_rules(
    name: &str,
    kind: Kind,
    of_text: Rule,
    of_pattern: Rule,
    defect: Defect,
    sides: Sides,
) -> Class {
    let mut text = drawn(of_text, (SIDE, SIDE), TEXT_SHIFT);
    let mut pattern = drawn(of_pattern, sides, PATTERN_SHIFT);
    match defect {
        Defect::Nowhere => {}
        Defect::LastOfPattern => {
            let last = pattern.len() - 1;
            disturb(&mut pattern, sides.1, last);
        }
        Defect::MiddleOfText => disturb(&mut text, SIDE, SIDE * SIDE / 2),
    }
    let name = format!("{name}{}", defect.said());
    class(name, kind, text, pattern, sides)
}

/// A constant, periodic or striped text with a pattern of the same rule.
pub fn regular(name: &str, rule: Rule, defect: Defect, sides: Sides) -> Class {
    by_rules(name, Kind::Regular, rule, rule, defect, sides)
}

/// A generator of numbers (splitmix64), with a fixed seed.
pub struct Random(pub u64);

impl Random {
    fn next(&mut self) -> u64 {
        self.0 = self.0.wrapping_add(0x9E37_79B9_7F4A_7C15);
        let mut z = self.0;
        z = (z ^ (z >> 30)).wrapping_mul(0xBF58_476D_1CE4_E5B9);
        z = (z ^ (z >> 27)).wrapping_mul(0x94D0_49BB_1331_11EB);
        z ^ (z >> 31)
    }

    pub fn below(&mut self, n: usize) -> usize {
        (self.next() % n as u64) as usize
    }

    /// That many cells over the first so many symbols.
    pub fn cells(&mut self, number: usize, symbols: usize) -> Vec<u8> {
        (0..number).map(|_| self.below(symbols) as u8).collect()
    }
}

/// A random text over so many symbols, in which a random pattern stands in other symbols at one corner.
pub fn random(symbols: usize, (height, width): Sides) -> Class {
    let mut random = Random((symbols * 1_000_000 + height * 1000 + width) as u64);
    let mut text = random.cells(SIDE * SIDE, symbols);
    let pattern = random.cells(height * width, symbols);
    let row = random.below(SIDE - height + 1);
    let column = random.below(SIDE - width + 1);
    for i in 0..height {
        for j in 0..width {
            // Another symbol of the same ones, and a different one for each.
            let image = (usize::from(pattern[i * width + j]) + 1) % symbols;
            text[(row + i) * SIDE + column + j] = image as u8;
        }
    }
    for x in &mut text {
        *x = x.wrapping_add(TEXT_SHIFT as u8);
    }
    let name = format!("random, {symbols} symbols");
    class(name, Kind::Random, text, pattern, (height, width))
}

/// A random text over so many symbols with a pattern that is drawn apart from it.
pub fn random_apart(symbols: usize, (height, width): Sides) -> Class {
    let mut random = Random((symbols * 1_000_000 + height * 1000 + width) as u64);
    let text = random.cells(SIDE * SIDE, symbols);
    let pattern = random.cells(height * width, symbols);
    let name = format!("random apart, {symbols} symbols");
    class(name, Kind::Random, text, pattern, (height, width))
}

/// The same with one row of the text constant, and the first row of the pattern.
pub fn with_constant_row(symbols: usize, row: usize, (height, width): Sides) -> Class {
    let Class { input, .. } = random_apart(symbols, (height, width));
    let (mut text, mut pattern) = (input.text, input.pattern);
    text[row * SIDE..(row + 1) * SIDE].fill(0);
    pattern[..width].fill(1);
    let name = format!("random, {symbols} symbols, row {row} and the pattern's first constant");
    class(name, Kind::Other, text, pattern, (height, width))
}
