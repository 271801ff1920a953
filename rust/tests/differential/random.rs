//! Random inputs, all from one fixed seed.

/// The seed of every run.
pub const SEED: u64 = 0x5EED_0000_C010_0E7A;

/// A generator of numbers (splitmix64).
pub struct Random(u64);

impl Random {
    /// The generator of one case. It depends on the seed, the operation and the case alone, so a case that failed can
    /// be run by itself.
    pub fn of_case(operation: &str, case: u64) -> Random {
        let mut random = Random(SEED ^ case);
        for byte in operation.bytes() {
            random.0 ^= u64::from(byte);
            random.next();
        }
        Random(random.next())
    }

    pub fn next(&mut self) -> u64 {
        self.0 = self.0.wrapping_add(0x9E37_79B9_7F4A_7C15);
        let mut z = self.0;
        z = (z ^ (z >> 30)).wrapping_mul(0xBF58_476D_1CE4_E5B9);
        z = (z ^ (z >> 27)).wrapping_mul(0x94D0_49BB_1331_11EB);
        z ^ (z >> 31)
    }

    /// A number below `n`.
    pub fn below(&mut self, n: usize) -> usize {
        (self.next() % n as u64) as usize
    }

    /// A number from `low` to `high`.
    pub fn between(&mut self, low: usize, high: usize) -> usize {
        low + self.below(high - low + 1)
    }

    /// True once in `n` times.
    pub fn one_in(&mut self, n: usize) -> bool {
        self.below(n) == 0
    }

    pub fn choose<T: Copy>(&mut self, choices: &[T]) -> T {
        choices[self.below(choices.len())]
    }

    pub fn byte(&mut self) -> u8 {
        self.next() as u8
    }

    /// That many different symbols, from anywhere among the 256 and in any order.
    pub fn symbols(&mut self, size: usize) -> Vec<u8> {
        let mut symbols: Vec<u8> = (0..=255).collect();
        for k in 0..size {
            let other = self.between(k, 255);
            symbols.swap(k, other);
        }
        symbols.truncate(size);
        symbols
    }

    /// A list of symbols from an alphabet of 1, 2, 3, 4, 16 or 256 of them.
    pub fn text(&mut self, cells: usize) -> Vec<u8> {
        let size = self.choose(&[1, 2, 3, 4, 16, 256]);
        let symbols = self.symbols(size);
        (0..cells).map(|_| self.choose(&symbols)).collect()
    }

    /// A buffer of noise.
    pub fn noise(&mut self, length: usize) -> Vec<u16> {
        (0..length).map(|_| self.next() as u16).collect()
    }

    /// A buffer of noise, of bytes.
    pub fn bytes(&mut self, length: usize) -> Vec<u8> {
        (0..length).map(|_| self.byte()).collect()
    }

    /// The rows and columns of a text: mostly few, sometimes as many as can be.
    pub fn sides(&mut self) -> (usize, usize) {
        match self.below(100) {
            0 => (255, 255),
            1 => (255, 1),
            2 => (1, 255),
            3..=5 => (self.between(1, 255), self.between(1, 4)),
            6..=8 => (self.between(1, 4), self.between(1, 255)),
            9..=29 => (self.between(1, 32), self.between(1, 32)),
            _ => (self.between(1, 7), self.between(1, 7)),
        }
    }

    /// A side of a window in a text that has `whole` for this side. In a large text it is close to 1 or to the whole,
    /// so that the brute force, whose work is windows × cells, has an end.
    pub fn part(&mut self, whole: usize) -> usize {
        let most = if whole <= 32 { whole } else { 3 };
        let part = self.between(1, most);
        if self.one_in(2) {
            whole + 1 - part
        } else {
            part
        }
    }

    /// A place from 0 to `last`, often one of the two.
    pub fn place(&mut self, last: usize) -> usize {
        match self.below(4) {
            0 => 0,
            1 => last,
            _ => self.between(0, last),
        }
    }

    /// Makes one of the sides 0 or too large, once in a while: also by a number that a cast to fewer bits would make
    /// good again.
    pub fn spoil_side(&mut self, sides: &mut [usize]) {
        if self.one_in(12) {
            let at = self.below(sides.len());
            let side = sides[at];
            sides[at] = self.choose(&[
                0,
                256,
                256 + side,
                65536 + side,
                (1 << 32) + side,
                1 << 63,
                usize::MAX,
            ]);
        }
    }

    /// The length of a buffer that needs `needed` entries: enough, or one short, or none at all.
    pub fn room(&mut self, needed: usize) -> usize {
        match self.below(16) {
            0 => needed.saturating_sub(1),
            1 => 0,
            2..=8 => needed + self.between(1, 9),
            _ => needed,
        }
    }

    /// The length of a buffer that has the `needed` entries, and sometimes more.
    pub fn enough(&mut self, needed: usize) -> usize {
        needed + self.choose(&[0, 0, 1, 9, 300])
    }

    /// Takes cells from a text or adds some, once in a while.
    pub fn miscount(&mut self, text: &mut Vec<u8>) {
        match self.below(36) {
            0 => text.truncate(text.len() - 1),
            1 => text.push(7),
            2 => text.clear(),
            3 => text.extend_from_within(..),
            _ => (),
        }
    }
}
