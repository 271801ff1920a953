//! Bijections: pairing, inverting and composing.

use crate::random::Random;
use crate::{assert_met, number, Operation};
use brute::Columns;
use colourway::{Bijection, Refusal, NONE};

/// Columns with that many pairs, of symbols that may lie anywhere.
fn agreeing(random: &mut Random, pairs: usize) -> Columns {
    let mut columns = [[NONE; 256]; 2];
    let images = random.symbols(pairs);
    for (a, c) in random.symbols(pairs).into_iter().zip(images) {
        columns[0][usize::from(a)] = u16::from(c);
        columns[1][usize::from(c)] = u16::from(a);
    }
    columns
}

/// Columns of noise: of any numbers, or of numbers that may stand in a column.
fn noise(random: &mut Random) -> Columns {
    let most = random.choose(&[256, 257, 65535]);
    [(); 2].map(|()| [(); 256].map(|()| random.between(0, most) as u16))
}

/// Puts another number into one place of a column: also one above 256, and one that a cast to fewer bits would make
/// good again.
fn damage(random: &mut Random, columns: &mut Columns) {
    let column = random.below(2);
    let place = random.below(256);
    let was = columns[column][place];
    let symbol = u16::from(random.byte());
    columns[column][place] = random.choose(&[NONE, 257, 65535, symbol, was ^ 256, was + 512]);
}

/// Columns that mostly agree, from none to all symbols paired.
fn columns(random: &mut Random) -> Columns {
    let some = random.between(0, 256);
    let pairs = random.choose(&[0, 1, 8, 128, 255, 256, some]);
    let mut columns = agreeing(random, pairs);
    match random.below(16) {
        0..=1 => damage(random, &mut columns),
        2 => columns = noise(random),
        3 => columns.reverse(),
        _ => (),
    }
    columns
}

fn bijection(&[forward, backward]: &Columns) -> Bijection {
    Bijection::from_columns(forward, backward)
}

/// An operation's number, and the columns afterwards.
type Answer = (u8, Columns);

/// What the proved code answers where it is to change a bijection in these columns.
fn proved(given: &Columns, operation: impl Fn(&mut Bijection) -> Result<(), Refusal>) -> Answer {
    let mut changed = bijection(given);
    let number = number(operation(&mut changed));
    (number, [*changed.forward(), *changed.backward()])
}

/// A bijection and two symbols, each often one that is paired already.
fn input_to_pair(random: &mut Random) -> (Columns, u8, u8) {
    let columns = columns(random);
    let place = usize::from(random.byte());
    let a = random.byte();
    let image = columns[0][usize::from(a)] as u8;
    let c = match random.below(4) {
        0 => image,
        1 => columns[0][place] as u8,
        _ => random.byte(),
    };
    (columns, a, c)
}

#[test]
fn pairing_agrees() {
    let operation = Operation {
        name: "pair",
        input: input_to_pair,
        proved: |(given, a, c)| (proved(given, |b| b.pair(*a, *c)), *given),
        brute: |(given, a, c)| (brute::pair(given, *a, *c), *given),
    };
    // Of an accepted pair also whether it stood there already.
    let met = operation.compare(|((number, after), given)| (*number, after == given));
    assert_met(
        &met,
        &[(0, false), (0, true), (12, true), (13, true), (14, true)],
    );
}

#[test]
fn inverting_agrees() {
    let operation = Operation {
        name: "invert",
        input: columns,
        proved: |given| proved(given, Bijection::invert),
        brute: brute::invert,
    };
    assert_met(&operation.compare(|answer| answer.0), &[0, 14]);
}

/// How many symbols have an image.
pub fn size(columns: &Columns) -> usize {
    columns[0].iter().filter(|&&image| image < NONE).count()
}

#[test]
fn composing_agrees() {
    let operation = Operation {
        name: "compose",
        input: |random| (columns(random), columns(random)),
        proved: |(first, second)| proved(first, |b| b.compose(&bijection(second))),
        brute: |(first, second)| brute::compose(first, second),
    };
    // Of an accepted answer also whether it has no pair, some, or all. A refusal gives the first bijection back: if
    // that one can be inverted, the second was bad.
    let met = operation.compare(|(number, after)| match (number, size(after)) {
        (0, 0) => (0, "empty"),
        (0, 256) => (0, "whole"),
        (0, _) => (0, "partial"),
        _ if brute::invert(after).0 == 0 => (*number, "by the second"),
        _ => (*number, "by the first"),
    });
    assert_met(
        &met,
        &[
            (0, "empty"),
            (0, "partial"),
            (0, "whole"),
            (14, "by the first"),
            (14, "by the second"),
        ],
    );
}
