//! Sets of symbols.

use crate::random::Random;
use crate::Operation;
use colourway::Symbols;
use std::collections::BTreeSet;

/// A pattern of up to 255 by 255 cells, or none at all.
fn pattern(random: &mut Random) -> Vec<u8> {
    if random.one_in(50) {
        return Vec::new();
    }
    let (rows, columns) = random.sides();
    random.text(rows * columns)
}

/// A set's words, its size and its members, as they are taken: the lowest first, and then the lowest of the set without
/// it.
type Answer = ([u64; 4], u32, Vec<u8>);

fn proved(pattern: &[u8]) -> Answer {
    let set = Symbols::of(pattern);
    let mut members = Vec::new();
    let mut left = set;
    // One step more than there are symbols, so that a set that never ends is seen and does not hang.
    for _ in 0..=256 {
        let Some(lowest) = left.lowest() else { break };
        members.push(lowest);
        left = left.without(lowest);
    }
    (set.words(), set.size(), members)
}

fn brute(pattern: &[u8]) -> Answer {
    let set = brute::symbol_set(pattern);
    let size = set.len() as u32;
    (brute::words_of(&set), size, set.into_iter().collect())
}

#[test]
fn sets_of_patterns_agree() {
    let operation = Operation {
        name: "symbols",
        input: pattern,
        proved: |pattern| proved(pattern),
        brute: |pattern| brute(pattern),
    };
    let met = operation.compare(|answer| answer.1);
    for size in [0, 1, 2, 4, 16, 256] {
        assert!(
            met.get(&size) > Some(&10),
            "sets of {size} symbols: {met:?}"
        );
    }
}

/// Any four words, from all zeros over a few ones to all ones, and a symbol to take out.
fn words_and_symbol(random: &mut Random) -> ([u64; 4], u8) {
    let mut words = [0; 4];
    for word in &mut words {
        *word = match random.below(6) {
            0 => 0,
            1 => u64::MAX,
            2 => 1 << random.below(64),
            3 => random.next() & random.next() & random.next(),
            4 => random.next() | random.next() | random.next(),
            _ => random.next(),
        };
    }
    (words, random.byte())
}

/// Size and lowest symbol of a set, and the words of the set without a symbol.
type Parts = (u32, Option<u8>, [u64; 4]);

fn proved_parts(&(words, symbol): &([u64; 4], u8)) -> Parts {
    let set = Symbols::from_words(words);
    (set.size(), set.lowest(), set.without(symbol).words())
}

fn brute_parts(&(words, symbol): &([u64; 4], u8)) -> Parts {
    let mut set: BTreeSet<u8> = brute::set_of(words);
    let size = set.len() as u32;
    let lowest = set.first().copied();
    set.remove(&symbol);
    (size, lowest, brute::words_of(&set))
}

#[test]
fn sets_in_words_agree() {
    let operation = Operation {
        name: "symbols in words",
        input: words_and_symbol,
        proved: proved_parts,
        brute: brute_parts,
    };
    let met = operation.compare(|answer| answer.1.map(|lowest| lowest / 64));
    for word in [None, Some(0), Some(1), Some(2), Some(3)] {
        assert!(
            met.get(&word) > Some(&10),
            "sets whose lowest symbol is in word {word:?}: {met:?}"
        );
    }
}
