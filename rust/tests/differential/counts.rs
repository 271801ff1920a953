//! The numbers of different symbols in windows.

use crate::random::Random;
use crate::{assert_met, number, Operation};

#[derive(Debug)]
struct Input {
    text: Vec<u8>,
    rows: usize,
    columns: usize,
    height: usize,
    width: usize,
    counts: Vec<u16>,
}

/// A good input that is then spoilt, or not, in each way by which it can be refused: several at once show the order of
/// the refusals.
fn input(random: &mut Random) -> Input {
    let (rows, columns) = random.sides();
    let mut height = random.part(rows);
    let mut width = random.part(columns);
    let mut text = random.text(rows * columns);
    let room = random.room((rows - height + 1) * (columns - width + 1));
    if random.one_in(24) {
        height = random.choose(&[rows + 1, 255]);
    }
    if random.one_in(24) {
        width = random.choose(&[columns + 1, 255]);
    }
    random.miscount(&mut text);
    let mut sides = [rows, columns, height, width];
    random.spoil_side(&mut sides);
    Input {
        text,
        rows: sides[0],
        columns: sides[1],
        height: sides[2],
        width: sides[3],
        counts: random.noise(room),
    }
}

fn proved(case: &Input) -> (u8, Vec<u16>) {
    let mut counts = case.counts.clone();
    let outcome = colourway::distinct_counts(
        &case.text,
        case.rows,
        case.columns,
        case.height,
        case.width,
        &mut counts,
    );
    (number(outcome), counts)
}

fn brute(case: &Input) -> (u8, Vec<u16>) {
    brute::distinct_counts(
        &case.text,
        case.rows,
        case.columns,
        case.height,
        case.width,
        &case.counts,
    )
}

#[test]
fn counts_agree() {
    let operation = Operation {
        name: "distinct_counts",
        input,
        proved,
        brute,
    };
    assert_met(&operation.compare(|answer| answer.0), &[0, 2, 3, 4, 10]);
}
