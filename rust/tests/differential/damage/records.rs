//! Damage to the records of one window: its pairs, or the two cells that spoil it.

use super::{another, mismatch, two_cells, Entries};
use crate::random::Random;
use crate::texts::TextAndPattern;

/// Gives a pair the text symbol of a pair before it.
pub fn symbol_given_twice(
    random: &mut Random,
    _: &mut TextAndPattern,
    mut entries: Entries,
) -> Option<Vec<u8>> {
    let found = entries.some_found(random, 2)?;
    let pairs = entries.pairs(found);
    let later = random.between(1, pairs.len() - 1);
    pairs[later][2] = pairs[random.below(later)][2];
    Some(entries.bytes())
}

/// Gives a pair another text symbol, often that of some cell.
pub fn other_text_symbol(
    random: &mut Random,
    given: &mut TextAndPattern,
    mut entries: Entries,
) -> Option<Vec<u8>> {
    let found = entries.some_found(random, 1)?;
    let pairs = entries.pairs(found);
    let pair = &mut pairs[random.below(pairs.len())];
    let borrowed = random.choose(&given.text);
    let new = another(random, pair[2]);
    pair[2] = if borrowed == pair[2] {
        new
    } else {
        random.choose(&[borrowed, new])
    };
    Some(entries.bytes())
}

/// Gives a pair another pattern symbol.
pub fn other_pattern_symbol(
    random: &mut Random,
    _: &mut TextAndPattern,
    mut entries: Entries,
) -> Option<Vec<u8>> {
    let found = entries.some_found(random, 1)?;
    let pairs = entries.pairs(found);
    let pair = &mut pairs[random.below(pairs.len())];
    pair[1] = another(random, pair[1]);
    Some(entries.bytes())
}

/// Exchanges two pairs of a window.
pub fn pairs_exchanged(
    random: &mut Random,
    _: &mut TextAndPattern,
    mut entries: Entries,
) -> Option<Vec<u8>> {
    let found = entries.some_found(random, 2)?;
    let pairs = entries.pairs(found);
    let later = random.between(1, pairs.len() - 1);
    pairs.swap(random.below(later), later);
    Some(entries.bytes())
}

/// Adds a pair of any symbols to a window's, often after the last.
pub fn a_pair_more(
    random: &mut Random,
    _: &mut TextAndPattern,
    mut entries: Entries,
) -> Option<Vec<u8>> {
    let found = entries.some_found(random, 1)?;
    let end = entries.0[found].len();
    let any = random.between(1, end);
    let at = random.choose(&[any, end]);
    entries.0[found].insert(at, vec![2, random.byte(), random.byte()]);
    Some(entries.bytes())
}

/// Exchanges the cells of a mismatch.
pub fn cells_exchanged(
    random: &mut Random,
    _: &mut TextAndPattern,
    mut entries: Entries,
) -> Option<Vec<u8>> {
    let refused = entries.some_refused(random)?;
    entries.first(refused)[3..].rotate_left(2);
    Some(entries.bytes())
}

/// Gives one of the cells of a mismatch for both.
pub fn one_cell_twice(
    random: &mut Random,
    _: &mut TextAndPattern,
    mut entries: Entries,
) -> Option<Vec<u8>> {
    let refused = entries.some_refused(random)?;
    let record = entries.first(refused);
    if random.one_in(2) {
        record.copy_within(3..5, 5);
    } else {
        record.copy_within(5..7, 3);
    }
    Some(entries.bytes())
}

/// Says of a mismatch that it is alike on the other side.
pub fn other_kind(
    random: &mut Random,
    _: &mut TextAndPattern,
    mut entries: Entries,
) -> Option<Vec<u8>> {
    let refused = entries.some_refused(random)?;
    let record = entries.first(refused);
    record[0] = 7 - record[0];
    Some(entries.bytes())
}

/// Moves a cell of a mismatch out of the pattern: just past its last row or column, by its height or width, or so that
/// the position row × width + column stays the same. Nothing is done where no byte has such a number.
pub fn cell_outside(
    random: &mut Random,
    given: &mut TextAndPattern,
    mut entries: Entries,
) -> Option<Vec<u8>> {
    let refused = entries.some_refused(random)?;
    let first = random.choose(&[3, 5]);
    let cell = &mut entries.first(refused)[first..first + 2];
    let [row, column] = [cell[0], cell[1]].map(usize::from);
    let (height, width) = (given.height, given.width);
    let outside = match random.below(4) {
        0 => [height, column],
        1 => [row, width],
        2 => [row + height, column],
        _ if row > 0 => [row - 1, column + width],
        _ => [row, column + width],
    };
    for (byte, number) in cell.iter_mut().zip(outside) {
        *byte = u8::try_from(number).ok()?;
    }
    Some(entries.bytes())
}

/// Gives any two cells for a refused window's, as any kind of mismatch.
pub fn any_two_cells(
    random: &mut Random,
    given: &mut TextAndPattern,
    mut entries: Entries,
) -> Option<Vec<u8>> {
    let refused = entries.some_refused(random)?;
    let cells = two_cells(random, given);
    let kind = random.choose(&[3, 4]);
    *entries.first(refused) = mismatch(given, refused, kind, cells);
    Some(entries.bytes())
}

/// Lists a refused window as found, each symbol of the pattern with the window's symbol in its first or its last cell,
/// and counts it so.
pub fn found_for_refused(
    random: &mut Random,
    given: &mut TextAndPattern,
    mut entries: Entries,
) -> Option<Vec<u8>> {
    let refused = entries.some_refused(random)?;
    let symbols = given.window(refused);
    let [row, column] = given.corner(refused).map(|side| side as u8);
    let mut entry = vec![vec![1, row, column]];
    let last = random.one_in(2);
    for symbol in brute::symbol_set(&given.pattern) {
        let mut cells = given.pattern.iter();
        let has_it = |&other: &u8| other == symbol;
        let cell = if last {
            cells.rposition(has_it)
        } else {
            cells.position(has_it)
        };
        entry.push(vec![2, symbol, symbols[cell.expect("a cell")]]);
    }
    entries.0[refused] = entry;
    entries.count_again();
    Some(entries.bytes())
}

/// Lists a found window as refused, by any two cells, and counts it so.
pub fn refused_for_found(
    random: &mut Random,
    given: &mut TextAndPattern,
    mut entries: Entries,
) -> Option<Vec<u8>> {
    let found = entries.some_found(random, 0)?;
    let cells = two_cells(random, given);
    let kind = random.choose(&[3, 4]);
    entries.0[found] = vec![mismatch(given, found, kind, cells)];
    entries.count_again();
    Some(entries.bytes())
}
