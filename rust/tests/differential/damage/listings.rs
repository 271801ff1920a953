//! Damage to a listing as a whole: its bytes, its records, its windows and its counts.

use super::{another, some_below, Entries};
use crate::random::Random;
use crate::texts::TextAndPattern;

/// Changes any byte, often one of a mismatch, which may be as true afterwards.
pub fn one_byte(random: &mut Random, _: &mut TextAndPattern, entries: Entries) -> Option<Vec<u8>> {
    let mut records = entries.0.concat();
    let any = random.below(records.len());
    let mismatch = some_below(random, records.len(), |which| records[which].len() == 7);
    let which = random.choose(&[any, mismatch.unwrap_or(any)]);
    let at = random.below(records[which].len());
    records[which][at] = another(random, records[which][at]);
    Some(records.concat())
}

/// Changes any byte and takes the last one, so that more than one record may be bad.
pub fn one_byte_and_cut(
    random: &mut Random,
    given: &mut TextAndPattern,
    entries: Entries,
) -> Option<Vec<u8>> {
    let mut listing = one_byte(random, given, entries)?;
    listing.pop();
    Some(listing)
}

/// Takes bytes from the end: one, all, or any number.
pub fn cut(random: &mut Random, _: &mut TextAndPattern, entries: Entries) -> Option<Vec<u8>> {
    let mut listing = entries.bytes();
    let last = listing.len() - 1;
    listing.truncate(random.place(last));
    Some(listing)
}

/// Adds a byte or records after the closing.
pub fn bytes_left_over(
    random: &mut Random,
    _: &mut TextAndPattern,
    entries: Entries,
) -> Option<Vec<u8>> {
    let more = match random.below(3) {
        0 => vec![random.byte()],
        1 => vec![random.below(7) as u8],
        _ => entries.0[random.below(entries.0.len())].concat(),
    };
    Some([entries.bytes(), more].concat())
}

/// Exchanges any two records.
pub fn records_exchanged(
    random: &mut Random,
    _: &mut TextAndPattern,
    entries: Entries,
) -> Option<Vec<u8>> {
    let mut records = entries.0.concat();
    let one = random.below(records.len());
    let other = some_below(random, records.len(), |other| other != one)?;
    records.swap(one, other);
    Some(records.concat())
}

/// Leaves out any record.
pub fn record_left_out(
    random: &mut Random,
    _: &mut TextAndPattern,
    entries: Entries,
) -> Option<Vec<u8>> {
    let mut records = entries.0.concat();
    records.remove(random.below(records.len()));
    Some(records.concat())
}

/// Gives any record twice, one after the other.
pub fn record_twice(
    random: &mut Random,
    _: &mut TextAndPattern,
    entries: Entries,
) -> Option<Vec<u8>> {
    let mut records = entries.0.concat();
    let which = random.below(records.len());
    records.insert(which, records[which].clone());
    Some(records.concat())
}

/// Exchanges the records of two windows, their pairs included.
pub fn windows_exchanged(
    random: &mut Random,
    _: &mut TextAndPattern,
    mut entries: Entries,
) -> Option<Vec<u8>> {
    let one = entries.some_window(random);
    let other = some_below(random, entries.windows(), |other| other != one)?;
    entries.0.swap(one, other);
    Some(entries.bytes())
}

/// Leaves out a window's records or gives them twice, and counts it so, or not.
pub fn window_left_out_or_twice(
    random: &mut Random,
    _: &mut TextAndPattern,
    mut entries: Entries,
) -> Option<Vec<u8>> {
    let window = entries.some_window(random);
    if random.one_in(2) {
        entries.0.remove(window);
    } else {
        entries.0.insert(window, entries.0[window].clone());
    }
    if random.one_in(2) {
        entries.count_again();
    }
    Some(entries.bytes())
}

/// Names another window in a window's record, sometimes the one with row and column exchanged.
pub fn other_window(
    random: &mut Random,
    _: &mut TextAndPattern,
    mut entries: Entries,
) -> Option<Vec<u8>> {
    let window = entries.some_window(random);
    let record = entries.first(window);
    if record[1] != record[2] && random.one_in(3) {
        record.swap(1, 2);
    } else {
        let side = random.between(1, 2);
        record[side] = another(random, record[side]);
    }
    Some(entries.bytes())
}

/// Changes the closing's counts: one of them, both with their sum kept, the two exchanged, or their bytes.
pub fn other_counts(
    random: &mut Random,
    _: &mut TextAndPattern,
    mut entries: Entries,
) -> Option<Vec<u8>> {
    let old = entries.counts();
    let [found, refused] = old;
    let mut new = match random.below(8) {
        0 => [found.wrapping_add(1), refused],
        1 => [found.wrapping_sub(1), refused],
        2 => [found, refused.wrapping_add(1)],
        3 => [found, refused.wrapping_sub(1)],
        4 => [found.wrapping_add(1), refused.wrapping_sub(1)],
        5 => [found.wrapping_sub(1), refused.wrapping_add(1)],
        6 => [refused, found],
        _ => old.map(u16::swap_bytes),
    };
    if new == old {
        new[random.below(2)] ^= 256;
    }
    entries.close(new);
    Some(entries.bytes())
}

/// Leaves the listing, and changes a cell of what it is about.
pub fn other_text_or_pattern(
    random: &mut Random,
    given: &mut TextAndPattern,
    entries: Entries,
) -> Option<Vec<u8>> {
    given.change_one_cell(random);
    Some(entries.bytes())
}
