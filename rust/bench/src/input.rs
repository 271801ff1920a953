//! What is measured: a text and a pattern with their sides, and a class of them by its name.

/// A text and a pattern with their sides.
pub struct Input {
    pub text: Vec<u8>,
    pub rows: usize,
    pub columns: usize,
    pub pattern: Vec<u8>,
    pub height: usize,
    pub width: usize,
}

impl Input {
    /// How many windows stand beside each other.
    pub fn across(&self) -> usize {
        self.columns - self.width + 1
    }

    /// How many windows stand below each other.
    pub fn down(&self) -> usize {
        self.rows - self.height + 1
    }

    pub fn windows(&self) -> usize {
        self.down() * self.across()
    }
}

/// What kind of text a class has: the bars ask for it.
#[derive(Clone, Copy, PartialEq)]
pub enum Kind {
    /// Drawn at random.
    Random,
    /// Constant, periodic or striped, with or without a cell that is out of line.
    Regular,
    /// Neither: only the bars that hold of every class hold of it.
    Other,
}

/// An input with its name.
pub struct Class {
    pub name: String,
    pub kind: Kind,
    pub input: Input,
}
