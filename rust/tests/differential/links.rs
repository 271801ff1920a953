//! The links of strips.

use crate::random::Random;
use crate::{assert_met, number, Operation};

#[derive(Debug)]
struct Input {
    text: Vec<u8>,
    rows: usize,
    columns: usize,
    width: usize,
    column: usize,
    links: Vec<u16>,
}

/// A good input that is then spoilt, or not, in each way by which it can be refused: several at once show the order of
/// the refusals.
fn input(random: &mut Random) -> Input {
    let (rows, columns) = random.sides();
    let mut width = random.part(columns);
    let mut column = random.place(columns - width);
    let mut text = random.text(rows * columns);
    let room = random.room(rows * width);
    if random.one_in(12) {
        column = random.choose(&[columns - width + 1, columns, usize::MAX]);
    }
    if random.one_in(12) {
        width = random.choose(&[columns + 1, 255]);
    }
    random.miscount(&mut text);
    let mut sides = [rows, columns, width];
    random.spoil_side(&mut sides);
    Input {
        text,
        rows: sides[0],
        columns: sides[1],
        width: sides[2],
        column,
        links: random.noise(room),
    }
}

fn proved(case: &Input) -> (u8, Vec<u16>) {
    let mut links = case.links.clone();
    let outcome = colourway::strip_links(
        &case.text,
        case.rows,
        case.columns,
        case.width,
        case.column,
        &mut links,
    );
    (number(outcome), links)
}

fn brute(case: &Input) -> (u8, Vec<u16>) {
    brute::strip_links(
        &case.text,
        case.rows,
        case.columns,
        case.width,
        case.column,
        &case.links,
    )
}

#[test]
fn links_agree() {
    let operation = Operation {
        name: "strip_links",
        input,
        proved,
        brute,
    };
    assert_met(&operation.compare(|answer| answer.0), &[0, 2, 3, 4, 5, 9]);
}
