//! The program: what it prints, byte for byte.

#[path = "../program/run.rs"]
mod run;

use crate::random::Random;
use crate::texts::{sides, TextAndPattern, MADE};
use crate::{assert_met, by_part, Operation};

/// How many inputs the program is run on. A run costs about a thousand times a call.
const RUNS: u64 = 2_000;

/// What was done to an input, in the order of the names. Two of them at once show the order of the refusals.
const DAMAGES: [&str; 9] = [
    "a side of 0",
    "any bytes",
    "as it was",
    "bytes more",
    "cut",
    "sides exchanged",
    "sizes cut",
    "text and pattern exchanged",
    "too many cells",
];

#[derive(Debug)]
struct Input {
    made: &'static str,
    damage: &'static str,
    bytes: Vec<u8>,
}

/// The sides of a text of up to 16,384 cells, and of a pattern that is small or nearly as large. Many have listings too
/// long.
fn large_sides(random: &mut Random) -> [usize; 4] {
    let (rows, columns) = match random.below(10) {
        0..=3 => (128, 128),
        4 => (random.between(1, 64), 255),
        5 => (255, random.between(1, 64)),
        _ => (random.between(70, 110), random.between(70, 110)),
    };
    [rows, columns, random.part(rows), random.part(columns)]
}

fn input(random: &mut Random) -> Input {
    let sides = if random.one_in(4) {
        large_sides(random)
    } else {
        sides(random)
    };
    let given = TextAndPattern::make(random, sides);
    let mut bytes: Vec<u8> = sides.iter().map(|&side| side as u8).collect();
    bytes.extend(&given.text);
    bytes.extend(&given.pattern);
    let mut damage = "as it was";
    if random.one_in(2) {
        damage = random.choose(&DAMAGES);
        if random.one_in(2) {
            let earlier = random.choose(&DAMAGES);
            spoil(random, earlier, &given, &mut bytes);
        }
        spoil(random, damage, &given, &mut bytes);
    }
    Input {
        made: given.made,
        damage,
        bytes,
    }
}

/// Does to an input what the name says.
fn spoil(random: &mut Random, damage: &str, given: &TextAndPattern, bytes: &mut Vec<u8>) {
    // An input whose sizes are cut already stays as it is.
    let Some(sizes) = bytes.first_chunk_mut::<4>() else {
        return;
    };
    match damage {
        "a side of 0" => sizes[random.below(4)] = 0,
        "any bytes" => {
            let length = random.between(0, 60);
            *bytes = random.bytes(length);
        }
        "bytes more" => {
            let more = random.choose(&[1, 1, 4, 255, 40_000]);
            bytes.extend(random.bytes(more));
        }
        "cut" => {
            let last = bytes.len() - 1;
            bytes.truncate(random.between(4, last.max(4)));
        }
        "sizes cut" => bytes.truncate(random.below(4)),
        "sides exchanged" => sizes.swap(random.below(4), random.below(4)),
        "text and pattern exchanged" => {
            *bytes = [given.height, given.width, given.rows, given.columns]
                .map(|side| side as u8)
                .to_vec();
            bytes.extend(&given.pattern);
            bytes.extend(&given.text);
        }
        "too many cells" => {
            let (rows, columns) = random.choose(&[(128, 129), (129, 128), (145, 113), (255, 255)]);
            let first = random.choose(&[0, 2]);
            sizes[first..first + 2].copy_from_slice(&[rows, columns]);
            // As many cells as the sides ask for now, or as before.
            if random.one_in(2) {
                let cells = |a: u8, b: u8| usize::from(a) * usize::from(b);
                let [a, b, c, d] = *sizes;
                bytes.resize(4 + cells(a, b) + cells(c, d), 7);
            }
        }
        _ => (),
    }
}

/// The refusal's number, or 0 and how many windows are found.
fn result(output: &[u8]) -> (u8, &'static str) {
    let output = std::str::from_utf8(output).expect("words and decimals");
    if let Some(number) = output.strip_prefix("refused ") {
        return (number.trim_end().parse().expect("a number"), "");
    }
    let closing = output.lines().last().expect("a closing");
    let numbers: Vec<u16> = closing
        .split(' ')
        .map(|n| n.parse().expect("a byte"))
        .collect();
    let detail = match numbers[..] {
        [5, 0, 0, _, _] => "none found",
        [5, _, _, 0, 0] => "all found",
        [5, _, _, _, _] => "some found",
        _ => panic!("a closing: {closing}"),
    };
    (0, detail)
}

#[test]
fn programs_agree() {
    let operation = Operation {
        name: "program",
        input,
        proved: |input| run::output_of(&input.bytes),
        brute: |input| brute::program(&input.bytes),
    };
    let met = operation.compare_on(RUNS, |input, output| {
        (
            input.made,
            input.damage,
            result(output),
            output.len() > 65_536,
        )
    });
    assert_eq!(met.values().sum::<u64>(), RUNS);
    assert_met(
        &by_part(&met, |&(_, _, result, _)| Some(result)),
        &[
            (0, "all found"),
            (0, "none found"),
            (0, "some found"),
            (1, ""),
            (2, ""),
            (3, ""),
            (4, ""),
            (8, ""),
            (11, ""),
        ],
    );
    let accepted = by_part(&met, |&(made, _, (number, _), _)| {
        (number == 0).then_some(made)
    });
    assert_met(&accepted, &MADE);
    assert_met(&by_part(&met, |&(_, damage, _, _)| Some(damage)), &DAMAGES);
    // Outputs that no pipe holds at once.
    assert_met(
        &by_part(&met, |&(_, _, _, long)| Some(long)),
        &[false, true],
    );
}
