//! Texts with patterns, made in several ways, and their listings by brute force.

use crate::random::Random;
use brute::{Buffers, Given};

/// A text and a pattern with their sides.
#[derive(Clone, Debug)]
pub struct TextAndPattern {
    /// How text and pattern were made, and what is special about their sides.
    pub made: &'static str,
    pub shape: &'static str,
    pub text: Vec<u8>,
    pub rows: usize,
    pub columns: usize,
    pub pattern: Vec<u8>,
    pub height: usize,
    pub width: usize,
}

/// The ways in which [`TextAndPattern::make`] makes them, in the order of the words.
pub const MADE: [&str; 5] = [
    "matching up to the last cell",
    "planted",
    "planted and changed",
    "repeated",
    "unrelated",
];

/// The sides of a pattern in a text of 255 by 255 cells, for which the brute force is quick.
pub const LARGE_SIDES: [(usize, usize); 10] = [
    (1, 1),
    (2, 2),
    (3, 2),
    (8, 8),
    (32, 32),
    (1, 255),
    (255, 1),
    (2, 253),
    (220, 220),
    (255, 255),
];

/// The rows and columns of a text for which the brute force is quick.
fn text_sides(random: &mut Random) -> (usize, usize) {
    match random.below(16) {
        0 => (255, 1),
        1 => (1, 255),
        2 => (random.between(1, 254), 1),
        3 => (1, random.between(1, 254)),
        4 => (random.between(1, 100), random.between(1, 4)),
        5 => (random.between(1, 4), random.between(1, 100)),
        6..=8 => (random.between(1, 20), random.between(1, 20)),
        _ => (random.between(1, 7), random.between(1, 7)),
    }
}

/// The sides of a pattern: sometimes those of the text.
fn pattern_sides(random: &mut Random, rows: usize, columns: usize) -> (usize, usize) {
    if random.one_in(8) {
        (rows, columns)
    } else {
        (random.part(rows), random.part(columns))
    }
}

/// The sides of a text and of a pattern that fits into it.
pub fn sides(random: &mut Random) -> [usize; 4] {
    let (rows, columns) = text_sides(random);
    let (height, width) = pattern_sides(random, rows, columns);
    [rows, columns, height, width]
}

/// Those of a text of 255 by 255 cells, with a pattern that is small or large.
pub fn large_sides(random: &mut Random) -> [usize; 4] {
    let (height, width) = random.choose(&LARGE_SIDES);
    [255, 255, height, width]
}

/// What is special about the sides of a text and a pattern.
fn shape(rows: usize, columns: usize, height: usize, width: usize) -> &'static str {
    match (rows, columns) {
        _ if (height, width) == (rows, columns) => "as large as the text",
        (255, 1) => "255 by 1",
        (1, 255) => "1 by 255",
        (1, _) => "one row",
        (_, 1) => "one column",
        _ => "neither",
    }
}

impl TextAndPattern {
    /// A text and a pattern that fits into it, of these sides and made in any way.
    pub fn make(random: &mut Random, sides: [usize; 4]) -> TextAndPattern {
        let mut made = TextAndPattern::unrelated(random, sides);
        match random.below(5) {
            0 => made.plant(random),
            1 => made.plant_and_change(random),
            2 => made.repeat(random),
            3 => made.nearly_match(random),
            _ => (),
        }
        made
    }

    /// A text and a pattern that fits into it. The two have nothing to do with each other.
    fn unrelated(random: &mut Random, sides: [usize; 4]) -> TextAndPattern {
        let [rows, columns, height, width] = sides;
        TextAndPattern {
            made: "unrelated",
            shape: shape(rows, columns, height, width),
            text: random.text(rows * columns),
            rows,
            columns,
            pattern: random.text(height * width),
            height,
            width,
        }
    }

    /// Makes some windows the pattern in other symbols, each in its own. A later one may lie over an earlier one.
    fn plant(&mut self, random: &mut Random) {
        self.made = "planted";
        for _ in 0..random.between(1, 4) {
            let images = random.symbols(256);
            let row = random.place(self.rows - self.height);
            let column = random.place(self.columns - self.width);
            for i in 0..self.height {
                for j in 0..self.width {
                    self.text[(row + i) * self.columns + column + j] =
                        images[usize::from(self.pattern[i * self.width + j])];
                }
            }
        }
    }

    /// Plants the pattern and then changes one cell of it or of the text.
    fn plant_and_change(&mut self, random: &mut Random) {
        self.plant(random);
        self.made = "planted and changed";
        self.change_one_cell(random);
    }

    /// Changes one cell of the text or of the pattern, often to a symbol that another cell has.
    pub fn change_one_cell(&mut self, random: &mut Random) {
        let changed = if random.one_in(2) {
            &mut self.text
        } else {
            &mut self.pattern
        };
        let position = random.place(changed.len() - 1);
        let borrowed = changed[random.below(changed.len())];
        let new = random.byte();
        changed[position] = random.choose(&[borrowed, new]);
    }

    /// Repeats a tile all over the text, and another of its size all over the pattern: often the same one.
    fn repeat(&mut self, random: &mut Random) {
        self.made = "repeated";
        let (down, across) = (random.between(1, 8), random.between(1, 8));
        let tile = random.text(down * across);
        let other = match random.below(3) {
            0 => random.text(down * across),
            _ => tile.clone(),
        };
        let symbol = |tile: &[u8], position: usize, width: usize| {
            tile[position / width % down * across + position % width % across]
        };
        let columns = self.columns;
        for (position, cell) in self.text.iter_mut().enumerate() {
            *cell = symbol(&tile, position, columns);
        }
        let width = self.width;
        for (position, cell) in self.pattern.iter_mut().enumerate() {
            *cell = symbol(&other, position, width);
        }
    }

    /// Makes the text and the pattern constant, but for the pattern's last cell.
    fn nearly_match(&mut self, random: &mut Random) {
        self.made = "matching up to the last cell";
        self.text.fill(random.byte());
        let symbols = random.symbols(2);
        self.pattern.fill(symbols[0]);
        *self.pattern.last_mut().expect("a cell") = symbols[1];
    }

    /// The number of windows, of a pattern that fits into the text.
    pub fn windows(&self) -> usize {
        (self.rows - self.height + 1) * (self.columns - self.width + 1)
    }

    /// The row and the column of the corner of the window that has this number, row by row.
    pub fn corner(&self, window: usize) -> [usize; 2] {
        let across = self.columns - self.width + 1;
        [window / across, window % across]
    }

    /// The symbols of that window, row by row.
    pub fn window(&self, window: usize) -> Vec<u8> {
        let [row, column] = self.corner(window);
        let rows = self.text.chunks(self.columns).skip(row).take(self.height);
        rows.flat_map(|row| &row[column..column + self.width])
            .copied()
            .collect()
    }

    /// As the brute force takes it for a count and a list.
    pub fn given(&self) -> Given<'_> {
        call!(Given::of, self,)
    }

    /// What a search by brute force answers if these buffers are lent.
    pub fn search(&self, lent: &Buffers) -> (u8, Vec<usize>, Buffers) {
        call!(brute::search, self, lent)
    }

    /// Buffers with room for everything but the listing, which has this length.
    fn room(&self, listing: usize) -> Buffers {
        Buffers {
            links: vec![0; self.rows * self.width],
            counts: vec![0; self.windows()],
            flags: vec![0; self.windows()],
            listing: vec![0; listing],
        }
    }

    /// How many entries a search needs of links, counts, flags and listing.
    pub fn needed(&self) -> [usize; 4] {
        let windows = self.windows();
        [
            self.rows * self.width,
            windows,
            windows,
            self.listing_length(),
        ]
    }

    /// The length of the listing, which the brute force tells where there is no room for it.
    pub fn listing_length(&self) -> usize {
        self.search(&self.room(0)).1[0]
    }

    /// A length that no listing is above: a match takes 3 bytes and 3 for each symbol of the pattern, a mismatch 7, the
    /// closing 5.
    pub fn longest_listing(&self) -> usize {
        let symbols = brute::symbol_set(&self.pattern).len();
        self.windows() * 7.max(3 + 3 * symbols) + 5
    }

    /// The flags of all windows, as they are in truth.
    pub fn flags(&self) -> Vec<u8> {
        self.search(&self.room(0)).2.flags
    }

    /// The listing, of a pattern that fits into the text.
    pub fn listing(&self) -> Vec<u8> {
        let (_, returned, mut after) = self.search(&self.room(self.longest_listing()));
        after.listing.truncate(returned[2]);
        after.listing
    }

    /// Spoils text and pattern, or not, in each way by which they can be refused: several at once show the order of the
    /// refusals.
    pub fn spoil(&mut self, random: &mut Random) {
        if random.one_in(24) {
            self.height = random.choose(&[self.rows + 1, 2 * self.rows]);
            self.pattern = random.text(self.height * self.width);
        }
        if random.one_in(24) {
            self.width = random.choose(&[self.columns + 1, 2 * self.columns]);
            self.pattern = random.text(self.height * self.width);
        }
        random.miscount(&mut self.text);
        random.miscount(&mut self.pattern);
        let mut sides = [self.rows, self.columns, self.height, self.width];
        random.spoil_side(&mut sides);
        [self.rows, self.columns, self.height, self.width] = sides;
    }
}
