//! The one-window question.

use crate::bijections::size;
use crate::random::Random;
use crate::{assert_met, number, Operation};
use brute::Columns;
use colourway::{one_window, one_window_into, Bijection, Refusal, WindowAnswer};

#[derive(Debug)]
struct Input {
    text: Vec<u8>,
    rows: usize,
    columns: usize,
    pattern: Vec<u8>,
    height: usize,
    width: usize,
    row: usize,
    column: usize,
    /// What the columns and the mismatch hold before the operation.
    bijection: Columns,
    mismatch: [usize; 3],
}

impl Input {
    /// A text, and a pattern for a window that lies in it. The two have nothing to do with each other.
    fn unrelated(random: &mut Random) -> Input {
        let (rows, columns) = random.sides();
        let (height, width) = (random.part(rows), random.part(columns));
        Input {
            text: random.text(rows * columns),
            rows,
            columns,
            pattern: random.text(height * width),
            height,
            width,
            row: random.place(rows - height),
            column: random.place(columns - width),
            bijection: [(); 2].map(|()| [(); 256].map(|()| random.next() as u16)),
            mismatch: [(); 3].map(|()| random.next() as usize),
        }
    }

    /// The window's cell at a position of the pattern.
    fn window_cell(&mut self, position: usize) -> &mut u8 {
        let row = self.row + position / self.width;
        let column = self.column + position % self.width;
        &mut self.text[row * self.columns + column]
    }

    /// Makes the window the pattern in other symbols.
    fn plant(&mut self, random: &mut Random) {
        let images = random.symbols(256);
        for position in 0..self.pattern.len() {
            let image = images[usize::from(self.pattern[position])];
            *self.window_cell(position) = image;
        }
    }

    /// Changes one cell of the window or of the pattern, often to a symbol that another cell has.
    fn change_one_cell(&mut self, random: &mut Random) {
        let position = random.place(self.pattern.len() - 1);
        let other = random.below(self.pattern.len());
        let new = random.byte();
        let borrowed = random.one_in(2);
        if random.one_in(2) {
            let symbol = if borrowed {
                *self.window_cell(other)
            } else {
                new
            };
            *self.window_cell(position) = symbol;
        } else {
            self.pattern[position] = if borrowed { self.pattern[other] } else { new };
        }
    }

    /// Spoils the input, or not, in each way by which it can be refused: several at once show the order of the
    /// refusals.
    fn spoil(&mut self, random: &mut Random) {
        if random.one_in(12) {
            self.row = random.choose(&[self.rows - self.height + 1, self.rows, usize::MAX]);
        }
        if random.one_in(12) {
            self.column = random.choose(&[self.columns - self.width + 1, self.columns, usize::MAX]);
        }
        if random.one_in(24) {
            self.height = random.choose(&[self.rows + 1, 2 * self.rows]);
            self.pattern = random.text(self.height * self.width);
        }
        if random.one_in(24) {
            self.width = random.choose(&[self.columns + 1, 2 * self.columns]);
            self.pattern = random.text(self.height * self.width);
        }
        random.miscount(&mut self.text);
        random.miscount(&mut self.pattern);
        let mut sides = [self.rows, self.columns, self.height, self.width];
        random.spoil_side(&mut sides);
        [self.rows, self.columns, self.height, self.width] = sides;
    }
}

/// An input of which the pattern is planted in the text, or planted and then changed in one cell, or neither; spoilt,
/// or not.
fn input(random: &mut Random) -> Input {
    let mut input = Input::unrelated(random);
    match random.below(3) {
        0 => input.plant(random),
        1 => {
            input.plant(random);
            input.change_one_cell(random);
        }
        _ => (),
    }
    input.spoil(random);
    input
}

/// The number, the three numbers of a mismatch and the columns; and the same as the typed wrapper answers it.
type Answer = ((u8, [usize; 3], Columns), Result<WindowAnswer, u8>);

fn proved(case: &Input) -> Answer {
    let [forward, backward] = case.bijection;
    let mut bijection = Bijection::from_columns(forward, backward);
    let mut mismatch = case.mismatch;
    let outcome = call!(
        one_window_into,
        case,
        case.row,
        case.column,
        &mut bijection,
        &mut mismatch
    );
    let typed = call!(one_window, case, case.row, case.column);
    let columns = [*bijection.forward(), *bijection.backward()];
    (
        (number(outcome), mismatch, columns),
        typed.map_err(Refusal::number),
    )
}

fn brute(case: &Input) -> Answer {
    let answer = call!(brute::one_window, case, case.row, case.column);
    let typed = match answer {
        (0, [0, _, _], [forward, backward]) => Ok(WindowAnswer::Match(Bijection::from_columns(
            forward, backward,
        ))),
        (0, [kind, earlier, later], _) => Ok(WindowAnswer::Mismatch {
            alike_in_pattern: kind == 3,
            earlier,
            later,
        }),
        (number, _, _) => Err(number),
    };
    // A refusal changes no buffer.
    let left = match answer {
        (0, _, _) => answer,
        (number, _, _) => (number, case.mismatch, case.bijection),
    };
    (left, typed)
}

#[test]
fn windows_agree() {
    let operation = Operation {
        name: "one_window",
        input,
        proved,
        brute,
    };
    // The number and the kind; and of a match whether it pairs several symbols, of a mismatch whether it begins after
    // the first cell.
    let met = operation.compare(|((number, mismatch, columns), _)| {
        let [kind, earlier, _] = *mismatch;
        match number {
            0 => (0, kind, size(columns) > 1 || earlier > 0),
            number => (*number, 0, false),
        }
    });
    assert_met(
        &met,
        &[
            (0, 0, false),
            (0, 0, true),
            (0, 3, false),
            (0, 3, true),
            (0, 4, false),
            (0, 4, true),
            (2, 0, false),
            (3, 0, false),
            (4, 0, false),
            (5, 0, false),
        ],
    );
}
