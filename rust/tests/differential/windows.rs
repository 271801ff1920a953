//! Cells of windows.

use crate::random::Random;
use crate::Operation;

#[derive(Debug)]
struct Input {
    text: Vec<u8>,
    row_width: u8,
    row: u8,
    column: u8,
    i: u8,
    j: u8,
}

/// A text with a cell that lies in it, or just outside, or anywhere.
fn input(random: &mut Random) -> Input {
    let (rows, columns) = random.sides();
    let mut text = random.text(rows * columns);
    random.miscount(&mut text);
    let mut input = Input {
        text,
        row_width: columns as u8,
        row: random.below(rows + 1) as u8,
        column: random.below(columns + 1) as u8,
        i: 0,
        j: 0,
    };
    if random.one_in(8) {
        input.row_width = random.byte();
        input.row = random.byte();
        input.column = random.byte();
        input.i = random.byte();
        input.j = random.byte();
    } else {
        // The corner is moved up and to the left, and the cell in the window down and to the right.
        input.i = random.below(usize::from(input.row) + 1) as u8;
        input.j = random.below(usize::from(input.column) + 1) as u8;
        input.row -= input.i;
        input.column -= input.j;
    }
    input
}

fn proved(case: &Input) -> Option<u8> {
    colourway::window_cell(
        &case.text,
        case.row_width,
        case.row,
        case.column,
        case.i,
        case.j,
    )
}

fn brute(case: &Input) -> Option<u8> {
    brute::window_cell(
        &case.text,
        case.row_width,
        case.row,
        case.column,
        case.i,
        case.j,
    )
}

#[test]
fn window_cells_agree() {
    let operation = Operation {
        name: "window_cell",
        input,
        proved,
        brute,
    };
    let met = operation.compare(Option::is_some);
    assert!(
        met[&true] > 5_000 && met[&false] > 2_000,
        "inside and outside: {met:?}"
    );
}
