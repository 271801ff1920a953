//! Listings taken apart and put together again: with other mismatches, as true as the search's own, and with something
//! wrong.

mod listings;
mod records;

use crate::random::Random;
use crate::reader::brute_records;
use crate::texts::TextAndPattern;
use listings::*;
use records::*;

/// A listing in parts: for each window its records, a found one's pairs among them, and at last the closing alone.
#[derive(Clone, Debug, PartialEq, Eq)]
pub struct Entries(Vec<Vec<Vec<u8>>>);

impl Entries {
    /// Those of a listing that a search wrote.
    pub fn of(listing: &[u8]) -> Entries {
        let mut entries: Vec<Vec<Vec<u8>>> = Vec::new();
        for record in brute_records(listing) {
            let record = record.expect("a whole record");
            match entries.last_mut() {
                Some(entry) if record[0] == 2 => entry.push(record),
                _ => entries.push(vec![record]),
            }
        }
        Entries(entries)
    }

    /// The bytes of the listing.
    pub fn bytes(&self) -> Vec<u8> {
        self.0.concat().concat()
    }

    fn windows(&self) -> usize {
        self.0.len() - 1
    }

    /// The first record of a window, which says whether it is found.
    fn first(&mut self, window: usize) -> &mut Vec<u8> {
        &mut self.0[window][0]
    }

    /// The pairs of a window.
    fn pairs(&mut self, window: usize) -> &mut [Vec<u8>] {
        &mut self.0[window][1..]
    }

    /// Some window, by its number.
    fn some_window(&self, random: &mut Random) -> usize {
        random.below(self.windows())
    }

    /// Some window that stands there as found with that many pairs and more.
    fn some_found(&self, random: &mut Random, least_pairs: usize) -> Option<usize> {
        some_below(random, self.windows(), |window| {
            let entry = &self.0[window];
            entry[0][0] == 1 && entry.len() > least_pairs
        })
    }

    /// Some window that stands there as refused.
    fn some_refused(&self, random: &mut Random) -> Option<usize> {
        some_below(random, self.windows(), |window| self.0[window][0][0] != 1)
    }

    /// The closing's counts, found and refused.
    fn counts(&self) -> [u16; 2] {
        let closing = &self.0[self.windows()][0];
        [1, 3].map(|at| u16::from_be_bytes([closing[at], closing[at + 1]]))
    }

    /// Writes these counts into the closing.
    fn close(&mut self, [found, refused]: [u16; 2]) {
        let windows = self.windows();
        let closing = self.first(windows);
        closing[1..3].copy_from_slice(&found.to_be_bytes());
        closing[3..5].copy_from_slice(&refused.to_be_bytes());
    }

    /// Counts what stands there, and writes that into the closing.
    fn count_again(&mut self) {
        let windows = self.windows();
        let found = self.0.iter().filter(|entry| entry[0][0] == 1).count();
        self.close([found, windows - found].map(|count| count as u16));
    }

    /// Puts other true mismatches in for those that stand there.
    pub fn put_other_mismatches(&mut self, random: &mut Random, given: &TextAndPattern) {
        for window in 0..self.windows() {
            if self.first(window)[0] != 1 {
                if let Some(record) = some_mismatch(random, given, window) {
                    *self.first(window) = record;
                }
            }
        }
    }
}

/// One of the numbers below `n` for which this holds, if there are any.
fn some_below(random: &mut Random, n: usize, holds: impl Fn(usize) -> bool) -> Option<usize> {
    let good: Vec<usize> = (0..n).filter(|&k| holds(k)).collect();
    (!good.is_empty()).then(|| random.choose(&good))
}

/// About so many pairs of cells are looked at for another mismatch of a window: all of a window of up to 64 cells.
const PAIRS_OF_CELLS: usize = 64 * 64;

/// Some true mismatch of a window: the kind is chosen first, and then any of this kind can come. None where none was
/// met.
fn some_mismatch(random: &mut Random, given: &TextAndPattern, window: usize) -> Option<Vec<u8>> {
    let symbols = given.window(window);
    let cells = symbols.len();
    let kind = random.choose(&[3, 4]);
    let first = random.below(cells);
    let tries = (PAIRS_OF_CELLS / cells).clamp(1, cells);
    (first..first + tries).find_map(|cell| {
        let later = cell % cells;
        let earlier = some_below(random, later, |earlier| {
            let in_pattern = given.pattern[earlier] == given.pattern[later];
            let in_window = symbols[earlier] == symbols[later];
            in_pattern != in_window && in_pattern == (kind == 3)
        })?;
        Some(mismatch(given, window, kind, [earlier, later]))
    })
}

/// The record of a mismatch of this kind, with two cells by their positions in the pattern, whether it is true or not.
fn mismatch(given: &TextAndPattern, window: usize, kind: u8, cells: [usize; 2]) -> Vec<u8> {
    let [earlier, later] = cells.map(|cell| [cell / given.width, cell % given.width]);
    let numbers = [given.corner(window), earlier, later].concat();
    let body = numbers.into_iter().map(|number| number as u8);
    [kind].into_iter().chain(body).collect()
}

/// Two cells of the pattern by their positions, the earlier first. They are one where the pattern has no more.
fn two_cells(random: &mut Random, given: &TextAndPattern) -> [usize; 2] {
    let cells = given.pattern.len();
    let one = random.below(cells);
    let other = some_below(random, cells, |other| other != one).unwrap_or(one);
    [one.min(other), one.max(other)]
}

/// Another byte than this: often the next one, the one before, or a small one.
fn another(random: &mut Random, byte: u8) -> u8 {
    let (any, small) = (random.byte(), random.below(7) as u8);
    let new = random.choose(&[any, small, byte.wrapping_add(1), byte.wrapping_sub(1)]);
    if new == byte {
        !byte
    } else {
        new
    }
}

/// Does something to a listing, or to what it is about. The bytes afterwards, if there was something to do it to.
type Damage = fn(&mut Random, &mut TextAndPattern, Entries) -> Option<Vec<u8>>;

/// Every damage by its name, in the order of the names, with the numbers that a check can answer after it.
pub const DAMAGES: [(&str, Damage, &[u8]); 24] = [
    ("a pair more", a_pair_more, &[6, 7]),
    ("any two cells", any_two_cells, &[0, 7]),
    ("bytes left over", bytes_left_over, &[6]),
    ("cell outside", cell_outside, &[7]),
    ("cells exchanged", cells_exchanged, &[7]),
    ("cut", cut, &[6]),
    ("found for refused", found_for_refused, &[7]),
    ("one byte", one_byte, &[0, 6, 7]),
    ("one byte and cut", one_byte_and_cut, &[6, 7]),
    ("one cell twice", one_cell_twice, &[7]),
    ("other counts", other_counts, &[7]),
    ("other kind", other_kind, &[7]),
    ("other pattern symbol", other_pattern_symbol, &[7]),
    ("other text or pattern", other_text_or_pattern, &[0, 6, 7]),
    ("other text symbol", other_text_symbol, &[7]),
    ("other window", other_window, &[7]),
    ("pairs exchanged", pairs_exchanged, &[7]),
    ("record left out", record_left_out, &[6, 7]),
    ("record twice", record_twice, &[6, 7]),
    ("records exchanged", records_exchanged, &[0, 6, 7]),
    ("refused for found", refused_for_found, &[7]),
    ("symbol given twice", symbol_given_twice, &[7]),
    (
        "window left out or twice",
        window_left_out_or_twice,
        &[6, 7],
    ),
    ("windows exchanged", windows_exchanged, &[7]),
];
