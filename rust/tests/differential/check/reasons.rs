//! What is wrong with the first bad record of a listing, in words.

use super::Input;
use crate::reader::brute_records;
use crate::texts::TextAndPattern;

/// What the records before the first bad one say, all of which are good.
#[derive(Default)]
struct Before {
    /// How many windows they are about, and how many of these are found.
    windows: usize,
    found: usize,
    /// The pairs after the last found one, and the last kind.
    pairs: Vec<[u8; 2]>,
    last: u8,
}

impl Before {
    fn of(listing: &[u8]) -> Before {
        let mut before = Before::default();
        for record in brute_records(listing) {
            let record = record.expect("a whole record");
            before.last = record[0];
            match record[..] {
                [2, a, c] => before.pairs.push([a, c]),
                [5, ..] => (),
                [kind, ..] => {
                    before.windows += 1;
                    before.found += usize::from(kind == 1);
                    before.pairs.clear();
                }
                [] => panic!("a record has a kind"),
            }
        }
        before
    }
}

/// The symbols of the pattern, rising.
fn symbols(given: &TextAndPattern) -> Vec<u8> {
    brute::symbol_set(&given.pattern).into_iter().collect()
}

/// What is wrong with the form of the record at this place. A cut record of a kind that isn't due counts as the latter.
pub fn wrong_form(input: &Input, at: usize) -> &'static str {
    let before = Before::of(&input.listing[..at]);
    let after_all = before.windows == input.given.windows();
    let among_pairs =
        [1, 2].contains(&before.last) && before.pairs.len() < symbols(&input.given).len();
    let due: &[u8] = match (among_pairs, after_all) {
        (true, _) => &[2],
        (false, true) => &[5],
        (false, false) => &[1, 3, 4],
    };
    match input.listing.get(at) {
        None => "missing",
        Some(_) if before.last == 5 => "left over",
        Some(0 | 6..) => "unknown kind",
        Some(kind) if due.contains(kind) => "cut",
        Some(_) => "not due",
    }
}

/// All that is wrong with what the record at this place states.
pub fn falsehoods(input: &Input, at: usize) -> Vec<&'static str> {
    let before = Before::of(&input.listing[..at]);
    let mut all = match input.listing[at..] {
        [1, ..] => Vec::new(),
        [2, a, c, ..] => return pair_falsehoods(&input.given, &before, [a, c]),
        [5, a, b, c, d, ..] => {
            let [found, refused] = [[a, b], [c, d]].map(u16::from_be_bytes).map(usize::from);
            let refused_before = before.windows - before.found;
            return those(&[
                ("found", found != before.found),
                ("refused", refused != refused_before),
            ]);
        }
        [kind, _, _, i, j, x, y, ..] => {
            cells_falsehoods(&input.given, before.windows, kind, [[i, j], [x, y]])
        }
        _ => panic!("a whole record"),
    };
    let named = [input.listing[at + 1], input.listing[at + 2]].map(usize::from);
    if named != input.given.corner(before.windows) {
        all.push("window");
    }
    all
}

/// The names of those that hold.
fn those(conditions: &[(&'static str, bool)]) -> Vec<&'static str> {
    let holding = conditions.iter().filter(|(_, holds)| *holds);
    holding.map(|(name, _)| *name).collect()
}

/// All that is wrong with a pair after the records before it.
fn pair_falsehoods(given: &TextAndPattern, before: &Before, [a, c]: [u8; 2]) -> Vec<&'static str> {
    let next = symbols(given)[before.pairs.len()];
    let window = given.window(before.windows - 1);
    let mut cells = given.pattern.iter().zip(window);
    those(&[
        ("pattern symbol", a != next),
        (
            "text symbol",
            cells.any(|(&symbol, image)| symbol == next && image != c),
        ),
        (
            "given already",
            before.pairs.iter().any(|&[_, other]| other == c),
        ),
    ])
}

/// All that is wrong with the two cells of a mismatch.
fn cells_falsehoods(
    given: &TextAndPattern,
    window: usize,
    kind: u8,
    cells: [[u8; 2]; 2],
) -> Vec<&'static str> {
    let [earlier, later] = cells.map(|cell| cell.map(usize::from));
    if [earlier, later]
        .iter()
        .any(|&[row, column]| row >= given.height || column >= given.width)
    {
        return vec!["outside"];
    }
    let alike = |side: &[u8]| {
        let [one, other] = [earlier, later].map(|[row, column]| side[row * given.width + column]);
        one == other
    };
    let sides = (alike(&given.pattern), alike(&given.window(window)));
    those(&[
        ("order", earlier >= later),
        ("3 of both sides", (kind, sides) == (3, (true, true))),
        ("3 of no side", (kind, sides) == (3, (false, false))),
        ("3 of the window", (kind, sides) == (3, (false, true))),
        ("4 of both sides", (kind, sides) == (4, (true, true))),
        ("4 of no side", (kind, sides) == (4, (false, false))),
        ("4 of the pattern", (kind, sides) == (4, (true, false))),
    ])
}
