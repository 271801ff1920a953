//! Classes on which a search for the worst inputs found the highest ratios. Each says what the proved programs do there
//! that the plain one does not.

use crate::input::{Class, Kind};
use crate::texts::{
    by_rules, class, disturb, drawn, random_apart, regular, with_constant_row, Defect, Random,
    Rule, Sides, SIDE,
};

/// Every such class.
pub fn classes() -> Vec<Class> {
    let mut all = Vec::new();
    all.extend(one_first_row());
    all.extend(second_rows());
    all.extend(first_row_alike());
    all.extend(one_row());
    all.extend(products());
    all.extend(many_symbols());
    all.extend(small());
    all.extend(thin());
    all.extend(flat());
    all
}

/// One window of each strip agrees with the pattern in its first row, and none goes further: links would cost more than
/// what is compared.
fn one_first_row() -> impl Iterator<Item = Class> {
    let sides = [
        (255, 128, 0),
        (255, 16, 0),
        (200, 128, 20),
        (128, 128, 64),
        (64, 64, 100),
    ];
    [16, 256].into_iter().flat_map(move |symbols| {
        sides.map(|(height, width, row)| with_constant_row(symbols, row, (height, width)))
    })
}

/// All windows agree with the pattern in its first row, and none in the first cell of its second: each is compared for
/// a row, by the plain program once and by the proved one for its flag and again for its record.
fn second_rows() -> impl Iterator<Item = Class> {
    let rules: [(&str, Rule); 2] = [
        ("stripes of 8 symbols", |_, j| j % 8),
        ("stripes of 32 symbols", |_, j| j % 32),
    ];
    let sides = [(255, 128), (200, 128), (128, 128), (64, 64), (8, 128)];
    rules.into_iter().flat_map(move |(name, rule)| {
        sides.map(|sides| {
            let mut pattern = drawn(rule, sides, 3);
            disturb(&mut pattern, sides.1, sides.1);
            let name = format!("{name}, second row's first cell different");
            class(
                name,
                Kind::Regular,
                drawn(rule, (SIDE, SIDE), 150),
                pattern,
                sides,
            )
        })
    })
}

/// The first row of the pattern is the text's, and the others are random cells of the same symbols.
fn first_row_alike() -> impl Iterator<Item = Class> {
    let rules: [(&str, Rule, usize, Sides); 3] = [
        ("period 3 by 5", |i, j| i % 3 * 5 + j % 5, 15, (219, 174)),
        ("stripes of 16 symbols", |_, j| j % 16, 16, (2, 233)),
        ("stripes of 16 symbols", |_, j| j % 16, 16, (128, 128)),
    ];
    rules.into_iter().map(|(name, rule, symbols, sides)| {
        let mut pattern = Random(1).cells(sides.0 * sides.1, symbols);
        let first = drawn(rule, (1, sides.1), 0);
        pattern[..sides.1].copy_from_slice(&first);
        let name = format!("{name}, first row alike and then random");
        class(
            name,
            Kind::Regular,
            drawn(rule, (SIDE, SIDE), 150),
            pattern,
            sides,
        )
    })
}

/// One row of windows, or windows of one row, all of which match: no window inherits from one above it.
fn one_row() -> impl Iterator<Item = Class> {
    let columns: (&str, Rule) = ("columns constant, all different", |_, j| j);
    let diagonals: (&str, Rule) = ("diagonals constant, all different", |i, j| i + j);
    let stripes: (&str, Rule) = ("stripes of 8 symbols", |_, j| j % 8);
    let classes = [
        (columns, (255, 128)),
        (columns, (255, 16)),
        (columns, (2, 242)),
        (diagonals, (255, 1)),
        (diagonals, (1, 255)),
        (stripes, (1, 146)),
        (("period 2 by 31", |i, j| i % 2 * 31 + j % 31), (2, 185)),
    ];
    classes
        .into_iter()
        .map(|((name, rule), sides)| regular(name, rule, Defect::Nowhere, sides))
}

/// The text's first row and the pattern's are constant, all others have many symbols.
fn products() -> [Class; 2] {
    let product: Rule = |i, j| i * j;
    [(232, 127), (16, 182)].map(|sides| {
        let name = "products of row and column";
        by_rules(name, Kind::Other, product, product, Defect::Nowhere, sides)
    })
}

/// Large patterns with many symbols and few windows, each of which fails at once: what is done for the pattern alone
/// is most of the time.
fn many_symbols() -> impl Iterator<Item = Class> {
    let sides = [(255, 255), (249, 255), (200, 255), (128, 255), (254, 254)];
    let all = sides.map(|sides| random_apart(256, sides));
    all.into_iter()
        .chain([random_apart(65, (255, 255)), random_apart(16, (255, 255))])
}

/// Small patterns that no window or nearly none matches: the place of a mismatch can't be foreseen, and the proved
/// search comes upon it two or three times.
fn small() -> impl Iterator<Item = Class> {
    let drawn: [(usize, Sides); 8] = [
        (2, (1, 8)),
        (2, (5, 5)),
        (2, (6, 6)),
        (4, (5, 5)),
        (4, (16, 3)),
        (5, (6, 6)),
        (16, (5, 5)),
        (256, (1, 2)),
    ];
    drawn
        .into_iter()
        .map(|(symbols, sides)| random_apart(symbols, sides))
}

/// Patterns of one column and few rows: what is done for each row of a strip is done for each cell.
fn thin() -> impl Iterator<Item = Class> {
    let sides = [(1, 1), (2, 1), (4, 1), (16, 1), (128, 1), (254, 1)];
    let random = [2, 3, 256]
        .into_iter()
        .flat_map(move |symbols| sides.map(|sides| random_apart(symbols, sides)));
    let constant: Rule = |_, _| 0;
    let stripes: Rule = |_, j| j % 4;
    let regular =
        |name, rule, sides| by_rules(name, Kind::Regular, rule, rule, Defect::Nowhere, sides);
    random.chain([
        regular("constant", constant, (1, 1)),
        regular("constant", constant, (2, 1)),
        regular("stripes of 4 symbols", stripes, (16, 1)),
    ])
}

/// Patterns of one row: the windows of a strip have no cell in common.
fn flat() -> impl Iterator<Item = Class> {
    let sides = [(1, 2), (1, 4), (1, 16), (1, 64)];
    let random = [2, 3]
        .into_iter()
        .flat_map(move |symbols| sides.map(|sides| random_apart(symbols, sides)));
    let constant: Rule = |_, _| 0;
    let stripes: Rule = |_, j| j % 4;
    let regular = |name, rule: Rule| {
        sides.map(|sides| by_rules(name, Kind::Regular, rule, rule, Defect::Nowhere, sides))
    };
    random
        .chain(regular("constant", constant))
        .chain(regular("stripes of 4 symbols", stripes))
}
