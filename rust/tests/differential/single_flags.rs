//! The list on flags that are nearly the truth: every flag of small texts changed by itself, and the flags of another
//! pattern.

use crate::lent::listed;
use crate::random::Random;
use crate::texts::TextAndPattern;
use std::collections::BTreeMap;

/// How many small texts are gone through, flag by flag.
const TEXTS: u64 = 500;

/// How many pairs of patterns are tried on one text each.
const PAIRS: u64 = 2_000;

/// What listing and totals hold before the list.
const NOISE: u8 = 0xA5;
const TOTALS: [usize; 3] = [71, 72, 73];

/// A text of up to 5 by 5 cells with a pattern of up to 3 by 3, both of two or three symbols: many windows match and
/// many do not.
fn small(random: &mut Random) -> TextAndPattern {
    let [rows, columns] = [(); 2].map(|()| random.between(1, 5));
    let [height, width] = [rows, columns].map(|side| random.between(1, side.min(3)));
    let mut given = TextAndPattern::make(random, [rows, columns, height, width]);
    few_symbols(random, &mut given.text);
    few_symbols(random, &mut given.pattern);
    given
}

fn few_symbols(random: &mut Random, cells: &mut [u8]) {
    let size = random.between(2, 3);
    let symbols = random.symbols(size);
    cells.fill_with(|| random.choose(&symbols));
}

/// The number of a list that is lent so much room, and the totals; fails where a refusal changes the listing, or
/// anything behind it is changed.
fn list_with(
    given: &TextAndPattern,
    flags: &[u8],
    expected: &[u8],
    room: usize,
) -> (u8, [usize; 3]) {
    let mut listing = vec![NOISE; room];
    let mut totals = TOTALS;
    let number = listed(given, flags, &mut listing, &mut totals);
    if number == 0 {
        assert_eq!(listing[..expected.len()], *expected, "{given:?}");
        assert!(listing[expected.len()..].iter().all(|&byte| byte == NOISE));
    } else {
        assert_eq!(listing, vec![NOISE; room], "{number}: {given:?}");
    }
    (number, totals)
}

/// The totals that a listing's flags give.
fn totals_of(truth: &[u8], length: usize) -> [usize; 3] {
    let found = truth.iter().filter(|&&flag| flag == 1).count();
    [found, truth.len() - found, length]
}

/// Fails unless these flags are refused by 16 exactly if they are not the truth: whatever room the listing has, so that
/// 16 comes before 11. Whether they are the truth.
fn judged(given: &TextAndPattern, flags: &[u8], truth: &[u8], listing: &[u8]) -> bool {
    let length = listing.len();
    let right = flags[..truth.len()] == *truth;
    let [first, second, _] = TOTALS;
    for room in [0, length - 1, length, length + 3] {
        let expected = match (right, room < length) {
            (false, _) => (16, TOTALS),
            (true, true) => (11, [first, second, length]),
            (true, false) => (0, totals_of(truth, length)),
        };
        let answer = list_with(given, flags, listing, room);
        assert_eq!(answer, expected, "{flags:?}, room for {room}: {given:?}");
    }
    right
}

/// Every window of every text, each with the values 0, 1, 2 and 255 in its place. A window is the last one or another,
/// and found or refused: each of these with each value is met.
#[test]
fn a_single_flag_is_refused_unless_it_is_the_truth() {
    let mut met = BTreeMap::new();
    for case in 0..TEXTS {
        let given = small(&mut Random::of_case("single flags", case));
        let (truth, listing) = (given.flags(), given.listing());
        assert!(judged(&given, &truth, &truth, &listing));
        for window in 0..truth.len() {
            for value in [0, 1, 2, 255] {
                let mut flags = truth.clone();
                flags[window] = value;
                let right = judged(&given, &flags, &truth, &listing);
                assert_eq!(right, value == truth[window]);
                let last = window + 1 == truth.len();
                *met.entry((last, truth[window], value)).or_insert(0) += 1;
            }
        }
    }
    assert_eq!(met.len(), 16, "{met:?}");
    assert!(met.values().all(|&times| times >= 50), "{met:?}");
}

/// The flags of one pattern with another of the same size: right only where the two match in the same windows.
#[test]
fn flags_of_another_pattern_are_refused_unless_they_are_the_same() {
    let (mut same, mut other) = (0, 0);
    for case in 0..PAIRS {
        let random = &mut Random::of_case("flags of another pattern", case);
        let mut given = small(random);
        let flags = given.flags();
        few_symbols(random, &mut given.pattern);
        let (truth, listing) = (given.flags(), given.listing());
        match judged(&given, &flags, &truth, &listing) {
            true => same += 1,
            false => other += 1,
        }
    }
    assert!(
        same >= PAIRS / 10 && other >= PAIRS / 10,
        "{same} the same, {other} others"
    );
}

/// What stands behind the last window's flag, whatever it is, makes no difference.
#[test]
fn noise_behind_the_flags_makes_no_difference() {
    for case in 0..TEXTS {
        let random = &mut Random::of_case("noise behind the flags", case);
        let given = small(random);
        let (truth, listing) = (given.flags(), given.listing());
        for value in [0, 1, 2, 255] {
            for more in [1, 2, 300] {
                let mut flags = [&truth[..], &vec![value; more]].concat();
                assert!(judged(&given, &flags, &truth, &listing));
                let last = truth.len() - 1;
                flags[last] = 1 - truth[last];
                assert!(!judged(&given, &flags, &truth, &listing));
            }
        }
    }
}
