//! Classes that are aimed at what the proved programs do, or did, beside a comparison: the pattern's own ends, the
//! links of a strip, the second walk for a record, and the pairs of found windows. Each says what might be done there
//! that the plain program does not do.

use crate::input::{Class, Kind};
use crate::texts::{
    by_rules, class, disturb, drawn, random, random_apart, regular, Defect, Random, Rule, Sides,
    SIDE,
};

/// The symbols of the stripes here: few enough to stand in every window, and enough that counting one does not wait for
/// the one before.
const STRIPES: usize = 16;

/// Every such class.
pub fn classes() -> Vec<Class> {
    let mut all = vec![own_ends(), two_bands(), shifted_rows(), permuted_rows()];
    all.extend(random_below());
    all.extend(matches_above());
    all.extend([random(STRIPES, (65, 255)), random(STRIPES, (94, 255))]);
    all.extend([
        own_window(false),
        own_window(true),
        one_match(254, 0),
        one_match(65, 189),
    ]);
    all.extend([two_blocks(), thin((16, 2), 10), thin((12, 3), 9), uneven()]);
    all.extend([single_windows(), behind_pairs(), two_rows(), many_pairs()]);
    all.extend(told_by_counts());
    all
}

/// The cells of a rule that may depend on more than row and column.
fn filled((rows, columns): Sides, mut rule: impl FnMut(usize, usize) -> usize) -> Vec<u8> {
    let mut cells = Vec::with_capacity(rows * columns);
    for i in 0..rows {
        cells.extend((0..columns).map(|j| rule(i, j) as u8));
    }
    cells
}

/// One strip, in which every window fails at once, and a pattern that agrees with itself: its own ends would go through
/// all of it, and no window asks for them.
fn own_ends() -> Class {
    let sides = (254, 255);
    let text = Random(7).cells(SIDE * SIDE, 256);
    let name = String::from("random, 256 symbols, with a constant pattern");
    class(name, Kind::Other, text, filled(sides, |_, _| 0), sides)
}

/// All windows agree with the pattern in two rows and in next to nothing more: own ends of the whole pattern and links
/// of all strips would be of no use, since the comparison stops in the third row.
fn random_below() -> impl Iterator<Item = Class> {
    [(254, 255), (254, 128)].into_iter().map(|sides| {
        let alike = SIDE - sides.0 + 2;
        let mut random = Random(3);
        let text = filled((SIDE, SIDE), |i, j| match i < alike {
            true => j % STRIPES,
            false => random.below(STRIPES),
        });
        let pattern = filled(sides, |_, j| j % STRIPES);
        let name = format!("stripes of {STRIPES} symbols, random cells from row {alike} on");
        class(name, Kind::Other, text, pattern, sides)
    })
}

/// The search refuses nearly all windows by their counts, which cost little where rows are alike, and only the listing
/// walks through the strips. The list has no counts to ask: it walks twice, where no two cells that it keeps spoil the
/// next window too.
fn told_by_counts() -> [Class; 6] {
    let lattice = |(down, along): Sides, sides: Sides| {
        let text = filled((SIDE, SIDE), |i, j| {
            usize::from(i % down == down / 2 && j % along == along / 2)
        });
        let name =
            format!("constant, a cell in {down} by {along} different, with a constant pattern");
        class(name, Kind::Other, text, filled(sides, |_, _| 0), sides)
    };
    let other = |name: &str, text: Vec<u8>, pattern: Vec<u8>, sides| {
        class(String::from(name), Kind::Other, text, pattern, sides)
    };
    let fifth = filled((SIDE, SIDE), |i, j| if i % 5 == 4 { 255 } else { j });
    let second = filled((SIDE, SIDE), |i, _| if i % 2 == 1 { 255 } else { i });
    [
        lattice((60, 60), (64, 64)),
        lattice((2, 190), (2, 200)),
        lattice((97, 1), (98, 1)),
        other(
            "columns constant, all different, every fifth row constant",
            fifth,
            filled((5, 216), |_, j| j),
            (5, 216),
        ),
        other(
            "rows constant, every second one alike",
            second,
            filled((4, 1), |i, _| i),
            (4, 1),
        ),
        other(
            "random, 8 symbols, all cells of the pattern different",
            Random(5).cells(SIDE * SIDE, 8),
            filled((16, 1), |i, _| i),
            (16, 1),
        ),
    ]
}

/// Two windows of each strip agree with the pattern in its first two rows, and all others fail at once: links would
/// cost more than what is compared.
fn two_bands() -> Class {
    let (height, width) = (128, 128);
    let Class { input, .. } = random_apart(STRIPES, (height, width));
    let (mut text, mut pattern) = (input.text, input.pattern);
    for row in [60, 64] {
        text[row * SIDE..(row + 2) * SIDE].fill(0);
    }
    pattern[..2 * width].fill(1);
    let name = format!("random, {STRIPES} symbols, two bands and the pattern's first constant");
    class(name, Kind::Other, text, pattern, (height, width))
}

/// Stripes, each row shifted against the one above it, in the text otherwise than in the pattern but for two places in
/// the middle. So every window agrees in its first row, and two of each strip in their second: each is compared for a
/// row for its flag and again for its record; by the plain program once.
fn shifted_rows() -> Class {
    let (height, width) = (64, 128);
    let middle = (SIDE - height).div_ceil(2);
    let mut random = Random(5);
    let mut shifts = |alike: [usize; 2]| {
        let mut shift = 0;
        let mut below = |i: usize| {
            if !alike.contains(&i) {
                shift += 1 + random.below(STRIPES - 1);
            }
            shift
        };
        (0..SIDE).map(&mut below).collect::<Vec<_>>()
    };
    let of_text = shifts([middle, middle + 1]);
    let of_pattern = shifts([0, 1]);
    let text = filled((SIDE, SIDE), |i, j| (j + of_text[i]) % STRIPES);
    let pattern = filled((height, width), |i, j| (j + of_pattern[i]) % STRIPES);
    let name = format!("stripes of {STRIPES} symbols, rows shifted");
    class(name, Kind::Other, text, pattern, (height, width))
}

/// Stripes with other symbols in each row, so that every window agrees with the pattern in its first row and hardly one
/// in its second: each is compared for a row for its flag and again for its record.
fn permuted_rows() -> Class {
    let sides = (64, 64);
    let mut random = Random(1);
    let mut permuted = || {
        let mut symbols: [usize; STRIPES] = std::array::from_fn(|a| a);
        for a in (1..STRIPES).rev() {
            symbols.swap(a, random.below(a + 1));
        }
        symbols
    };
    let mut rows = || (0..SIDE).map(|_| permuted()).collect::<Vec<_>>();
    let (of_text, of_pattern) = (rows(), rows());
    let text = filled((SIDE, SIDE), |i, j| of_text[i][j % STRIPES]);
    let pattern = filled(sides, |i, j| of_pattern[i][j % STRIPES]);
    let name = format!("stripes of {STRIPES} symbols, rows permuted");
    class(name, Kind::Other, text, pattern, sides)
}

/// In each strip the windows of the first rows match and no others, one of them, or just as many as links are made for:
/// the links of the strip are of use to none below.
fn matches_above() -> impl Iterator<Item = Class> {
    let all = [
        (2, 128, 2),
        (2, 2, 33),
        (16, 128, 47),
        (64, 128, 71),
        (128, 128, 131),
    ];
    all.into_iter().map(|(height, width, alike)| {
        let mut random = Random(11);
        let text = filled((SIDE, SIDE), |i, _| match i < alike {
            true => 0,
            false => random.below(STRIPES),
        });
        let sides = (height, width);
        let name =
            format!("random, {STRIPES} symbols, {alike} rows constant, with a constant pattern");
        class(name, Kind::Other, text, filled(sides, |_, _| 1), sides)
    })
}

/// One strip of three windows, of which the second agrees with the pattern to its last cell or but for it. The pattern
/// agrees with itself two rows down, and that own end is made with the one that is asked for, though no window is two
/// rows below.
fn own_window(spoiled: bool) -> Class {
    let sides = (253, 255);
    let stripes = |i: usize, j: usize| (j + i % 2 * 3) % 8;
    let mut random = Random(9);
    let text = filled((SIDE, SIDE), |i, j| match (1..SIDE - 1).contains(&i) {
        true => stripes(i - 1, j),
        false => random.below(8),
    });
    let mut pattern = filled(sides, stripes);
    let last = pattern.len() - 1;
    if spoiled {
        pattern[last] = (pattern[last] + 1) % 8;
    }
    let part = match spoiled {
        true => ", last cell different",
        false => "",
    };
    let name = format!("stripes of 8 symbols, every second row shifted{part}");
    class(name, Kind::Other, text, pattern, sides)
}

/// Stripes, each row shifted by chance.
fn shifted(height: usize) -> (Random, Vec<usize>) {
    let mut random = Random(9);
    let shifts = (0..height).map(|_| random.below(8)).collect();
    (random, shifts)
}

/// One window of each strip matches, the one at row top, and all others fail at once: links would be made in vain.
fn one_match(height: usize, top: usize) -> Class {
    let (mut random, shifts) = shifted(height);
    let text = filled((SIDE, SIDE), |i, j| {
        match (top..top + height).contains(&i) {
            true => (j + shifts[i - top]) % 8,
            false => random.below(8),
        }
    });
    let pattern = filled((height, 128), |i, j| (j + shifts[i]) % 8);
    let name = format!("random, 8 symbols, one match a strip at row {top}");
    class(name, Kind::Other, text, pattern, (height, 128))
}

/// Two windows of each strip are walked through: the first matches, the other fails in its last row.
fn two_blocks() -> Class {
    let height = 127;
    let (mut random, shifts) = shifted(height);
    let text = filled((SIDE, SIDE), |i, j| match i < 2 * height {
        true => (j + i / height + shifts[i % height] + usize::from(i == 2 * height - 1)) % 8,
        false => random.below(8),
    });
    let pattern = filled((height, 128), |i, j| (j + shifts[i]) % 8);
    let name = String::from("stripes of 8 symbols, two blocks");
    class(name, Kind::Other, text, pattern, (height, 128))
}

/// Each window agrees in its first row and a cell more: the next one inherits a cell, which costs more than to compare
/// it again.
fn thin(sides: Sides, other: u8) -> Class {
    let text = filled((SIDE, SIDE), |i, _| i);
    let mut pattern = filled(sides, |i, _| i);
    pattern[3] = other;
    let name = String::from("rows constant, all different, fourth cell different");
    class(name, Kind::Other, text, pattern, sides)
}

/// A random text with one symbol in 24 cells: where a window fails is not to be foreseen, and is met twice.
fn uneven() -> Class {
    let sides = (12, 8);
    let mut random = Random(9);
    let text = filled((SIDE, SIDE), |_, _| usize::from(random.below(24) == 0));
    let pattern = filled(sides, |i, j| usize::from(text[(100 + i) * SIDE + 50 + j]));
    let name = String::from("random, one cell in 24 different");
    class(name, Kind::Random, text, pattern, sides)
}

/// One window a strip, which fails at its last cell: it is compared to its end for its flag and again for its record.
fn single_windows() -> Class {
    let rule: Rule = |_, j| j % STRIPES;
    let name = format!("stripes of {STRIPES} symbols");
    regular(&name, rule, Defect::LastOfPattern, (255, 250))
}

/// Every window passes the eight pairs, which lie in the first ten cells, and fails in the eleventh: it is compared for
/// its flag and again for its record.
fn behind_pairs() -> Class {
    let rule: Rule = |i, _| i % 2;
    let sides = (3, 6);
    let text = drawn(rule, (SIDE, SIDE), 150);
    let mut pattern = drawn(rule, sides, 3);
    disturb(&mut pattern, sides.1, 10);
    let name = String::from("horizontal stripes, eleventh cell different");
    class(name, Kind::Regular, text, pattern, sides)
}

/// A small pattern of two rows, which some windows of each strip match: many windows are compared for their flag and
/// again for their record.
fn two_rows() -> Class {
    random_apart(2, (2, 4))
}

/// Every window matches, with 64 pairs, and next to nothing is compared: a check of pairs beside the writing of pairs.
fn many_pairs() -> Class {
    let name = "all cells of a window different";
    let rows: Rule = |i, _| i;
    by_rules(name, Kind::Other, rows, rows, Defect::Nowhere, (64, 1))
}
