//! The classes that are measured, one after the other.

use crate::input::{Class, Kind};
use crate::texts::{by_rules, random, regular, Defect, Rule, Sides};

/// The rules of regular texts, with their names.
pub const CONSTANT: (&str, Rule) = ("constant", |_, _| 0);
pub const PERIODIC: (&str, Rule) = ("period 4 by 4", |i, j| i % 4 * 4 + j % 4);
pub const VERTICAL: (&str, Rule) = ("vertical stripes", |_, j| j % 2);
pub const HORIZONTAL: (&str, Rule) = ("horizontal stripes", |i, _| i % 2);
pub const CHECKERBOARD: (&str, Rule) = ("checkerboard", |i, j| (i + j) % 2);
pub const ROWS: (&str, Rule) = ("rows constant, all different", |i, _| i);
pub const COLUMNS: (&str, Rule) = ("columns constant, all different", |_, j| j);

/// Patterns from small ones to half of the text and more.
const LARGE: [Sides; 4] = [(16, 16), (64, 64), (128, 128), (128, 170)];

/// Patterns that nearly fill one side of the text and not the other.
const NARROW: [Sides; 5] = [(200, 2), (64, 2), (255, 1), (1, 255), (2, 200)];

/// Patterns as large as the text, or nearly.
const WHOLE: [Sides; 2] = [(255, 255), (250, 250)];

/// Every class.
pub fn classes() -> Vec<Class> {
    let mut all = Vec::new();
    all.extend(random_squares());
    all.extend(constant_and_periodic());
    all.extend(striped());
    all.extend(narrow());
    all.extend(all_found());
    all.extend(whole());
    all
}

/// A constant text with a constant pattern.
pub fn constant(sides: Sides) -> Class {
    regular(CONSTANT.0, CONSTANT.1, Defect::Nowhere, sides)
}

/// Random texts with square patterns of all sizes.
fn random_squares() -> impl Iterator<Item = Class> {
    let sides = [2, 4, 8, 16, 32, 64, 128, 224];
    [2, 4, 16, 256]
        .into_iter()
        .flat_map(move |symbols| sides.map(|side| random(symbols, (side, side))))
}

/// One symbol, and sixteen in four rows of four repeated all over: each window matches, or each fails at its end.
fn constant_and_periodic() -> impl Iterator<Item = Class> {
    let kinds = [
        (CONSTANT, Defect::Nowhere),
        (CONSTANT, Defect::LastOfPattern),
        (PERIODIC, Defect::Nowhere),
    ];
    kinds.into_iter().flat_map(|((name, rule), defect)| {
        let sides = [(2, 2)].into_iter().chain(LARGE);
        sides.map(move |sides| regular(name, rule, defect, sides))
    })
}

/// Stripes of all kinds, each as it is, with the pattern's last cell different, and with a cell of the text different;
/// and vertical stripes with a constant pattern whose last cell is different.
fn striped() -> impl Iterator<Item = Class> {
    let rules = [VERTICAL, HORIZONTAL, CHECKERBOARD, ROWS, COLUMNS];
    let defects = [Defect::Nowhere, Defect::LastOfPattern, Defect::MiddleOfText];
    let alike = rules.into_iter().flat_map(move |(name, rule)| {
        let classes = move |defect| LARGE.map(move |sides| regular(name, rule, defect, sides));
        defects.into_iter().flat_map(classes)
    });
    let unlike = LARGE.map(|sides| {
        let name = "vertical stripes with a constant pattern";
        let defect = Defect::LastOfPattern;
        by_rules(name, Kind::Regular, VERTICAL.1, CONSTANT.1, defect, sides)
    });
    alike.chain(unlike)
}

/// Narrow and tall patterns, and wide and low ones.
fn narrow() -> impl Iterator<Item = Class> {
    NARROW.into_iter().flat_map(|sides| {
        let rules = [CONSTANT, VERTICAL, HORIZONTAL];
        let regular = rules.map(|(name, rule)| regular(name, rule, Defect::Nowhere, sides));
        let random = [2, 256].map(|symbols| random(symbols, sides));
        regular.into_iter().chain(random)
    })
}

/// Every cell of a window is different from its others, and every window matches: the longest listings there are.
fn all_found() -> [Class; 5] {
    let found = |rule: Rule, sides| {
        let name = "all cells of a window different";
        by_rules(name, Kind::Other, rule, rule, Defect::Nowhere, sides)
    };
    [
        found(|i, j| 16 * i + j, (16, 16)),
        found(|i, j| 12 * i + j, (20, 12)),
        found(|i, j| 20 * i + j, (12, 20)),
        found(|i, j| 2 * i + j, (128, 2)),
        found(|i, j| 128 * i + j, (2, 128)),
    ]
}

/// Patterns as large as the text, or nearly: one window, or a few.
fn whole() -> impl Iterator<Item = Class> {
    WHOLE.into_iter().flat_map(|sides| {
        let (name, rule) = CONSTANT;
        let defects = [Defect::Nowhere, Defect::LastOfPattern];
        let constant = defects.map(|defect| regular(name, rule, defect, sides));
        let random = [2, 256].map(|symbols| random(symbols, sides));
        random.into_iter().chain(constant)
    })
}
