//! "Renamings" by brute force: an operation takes the columns apart into pairs, works on the set of pairs, and makes
//! columns of it.

use crate::first_refusal;
use std::collections::BTreeSet;

/// "A renaming has a forward and a backward column of 256 places."
pub type Columns = [[u16; 256]; 2];

/// "256 stands for no mate."
const NO_MATE: u16 = 256;

/// The pairs of motif number and sheet number that a forward column holds.
fn pairs_of(columns: &Columns) -> BTreeSet<(u8, u8)> {
    let mut pairs = BTreeSet::new();
    for a in 0..=255 {
        for b in 0..=255 {
            if columns[0][usize::from(a)] == u16::from(b) {
                pairs.insert((a, b));
            }
        }
    }
    pairs
}

/// The columns that hold these pairs and no other.
pub(crate) fn columns_of(pairs: &BTreeSet<(u8, u8)>) -> Columns {
    let mut columns = [[NO_MATE; 256]; 2];
    for &(a, b) in pairs {
        columns[0][usize::from(a)] = u16::from(b);
        columns[1][usize::from(b)] = u16::from(a);
    }
    columns
}

/// "The columns agree when, for all numbers a and b up to 255, the forward one gives b at a exactly if the backward one
/// gives a at b."
fn agree([forward, backward]: &Columns) -> bool {
    (0..256).all(|a| {
        (0..256).all(|b| (usize::from(forward[a]) == b) == (usize::from(backward[b]) == a))
    })
}

/// Condition 14: "a renaming whose columns disagree or hold a number above 256".
fn is_bad(columns: &Columns) -> bool {
    columns.iter().flatten().any(|&number| number > 256) || !agree(columns)
}

/// What an operation answers: refused, "it returns the (first) renaming as given".
fn answer(number: u8, given: &Columns, new: BTreeSet<(u8, u8)>) -> (u8, Columns) {
    if number != 0 {
        return (number, *given);
    }
    (0, columns_of(&new))
}

/// "Mating a with b adds the pair": the outcome's number, and the renaming afterwards.
pub fn pair(given: &Columns, a: u8, b: u8) -> (u8, Columns) {
    let mut pairs = pairs_of(given);
    let number = first_refusal(&[
        (14, is_bad(given)),
        (12, pairs.iter().any(|&(x, y)| x == a && y != b)),
        (13, pairs.iter().any(|&(x, y)| y == b && x != a)),
    ]);
    pairs.insert((a, b));
    answer(number, given, pairs)
}

/// "Inverting exchanges the columns."
pub fn invert(given: &Columns) -> (u8, Columns) {
    let number = first_refusal(&[(14, is_bad(given))]);
    let inverse = pairs_of(given).into_iter().map(|(a, b)| (b, a)).collect();
    answer(number, given, inverse)
}

/// "Composing two gives a to c wherever the first gives a to b and the second b to c."
pub fn compose(first: &Columns, second: &Columns) -> (u8, Columns) {
    let number = first_refusal(&[(14, is_bad(first)), (14, is_bad(second))]);
    let further = pairs_of(second);
    let mut composite = BTreeSet::new();
    for (a, b) in pairs_of(first) {
        for &(x, c) in &further {
            if x == b {
                composite.insert((a, c));
            }
        }
    }
    answer(number, first, composite)
}

#[cfg(test)]
mod tests {
    use super::*;

    fn holding(pairs: &[(u8, u8)]) -> Columns {
        columns_of(&pairs.iter().copied().collect())
    }

    #[test]
    fn pairing() {
        let given = holding(&[(1, 7)]);
        assert_eq!(pair(&given, 2, 3), (0, holding(&[(1, 7), (2, 3)])));
        assert_eq!(pair(&given, 1, 7), (0, given));
        assert_eq!(pair(&given, 1, 3), (12, given));
        assert_eq!(pair(&given, 2, 7), (13, given));
        // Both are taken, each by a pair of its own.
        let given = holding(&[(1, 7), (2, 3)]);
        assert_eq!(pair(&given, 1, 3), (12, given));
    }

    #[test]
    fn inverting_and_composing() {
        let first = holding(&[(1, 2), (3, 4), (0, 255)]);
        let second = holding(&[(2, 9), (255, 0), (5, 6)]);
        assert_eq!(invert(&first), (0, holding(&[(2, 1), (4, 3), (255, 0)])));
        assert_eq!(compose(&first, &second), (0, holding(&[(1, 9), (0, 0)])));
    }

    #[test]
    fn bad_columns() {
        let good = holding(&[(1, 7), (2, 3)]);
        assert!(!is_bad(&good));
        for (column, place, number) in [
            (0, 9, 257),
            (1, 9, 65535),
            (0, 1, 256),
            (1, 3, 1),
            (1, 8, 0),
        ] {
            let mut bad = good;
            bad[column][place] = number;
            assert!(is_bad(&bad), "{number} at {place}");
            assert_eq!(pair(&bad, 1, 3), (14, bad));
            assert_eq!(invert(&bad), (14, bad));
            assert_eq!(compose(&bad, &good), (14, bad));
            assert_eq!(compose(&good, &bad), (14, good));
        }
    }
}
