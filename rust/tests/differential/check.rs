//! The check of a listing.

mod reasons;

use crate::damage::{Entries, DAMAGES};
use crate::random::Random;
use crate::reader::{any_bytes, any_records};
use crate::texts::{large_sides, sides, TextAndPattern, LARGE_SIDES};
use crate::{assert_met, by_part, number, Operation};
use colourway::{check, check_into, CheckRefusal, Checked, Refusal};
use reasons::{falsehoods, wrong_form};
use std::collections::BTreeMap;

/// How many listings are checked: most of small texts, and, apart from the others, of texts of 40 by 40 and of 255 by
/// 255 cells.
const CASES: u64 = 200_000;
const MIDDLE_CASES: u64 = 1_000;
const LARGE_CASES: u64 = 40;

#[derive(Debug)]
struct Input {
    given: TextAndPattern,
    /// Where the listing comes from, and what was done to it then.
    origin: &'static str,
    damage: &'static str,
    listing: Vec<u8>,
    /// What the totals hold before the operation.
    totals: [usize; 2],
}

impl Input {
    /// The listing of a text and a pattern as the search writes it, or with other mismatches; damaged, or not.
    fn listed(random: &mut Random, given: TextAndPattern) -> Input {
        let mut entries = Entries::of(&given.listing());
        let mut input = Input {
            given,
            origin: "search",
            damage: "none",
            listing: entries.bytes(),
            totals: [(); 2].map(|()| random.next() as usize),
        };
        if random.one_in(2) {
            entries.put_other_mismatches(random, &input.given);
            let other = entries.bytes();
            if other != input.listing {
                input.origin = "other mismatches";
                input.listing = other;
            }
        }
        // Not every listing has what a damage is done to.
        while !random.one_in(6) {
            let (name, damage, _) = random.choose(&DAMAGES);
            if let Some(damaged) = damage(random, &mut input.given, entries.clone()) {
                input.damage = name;
                input.listing = damaged;
                break;
            }
        }
        input
    }

    /// Puts in for the listing what never was one.
    fn unlist(&mut self, random: &mut Random) {
        self.damage = "none";
        (self.origin, self.listing) = match random.below(3) {
            0 => ("records", any_records(random)),
            1 => ("bytes", any_bytes(random)),
            _ => ("empty", Vec::new()),
        };
    }
}

/// The sides of a text and a pattern, mostly small.
fn small_sides(random: &mut Random) -> [usize; 4] {
    if random.one_in(5) {
        return sides(random);
    }
    let [rows, columns] = [(); 2].map(|()| random.between(1, 6));
    let [height, width] = [rows, columns].map(|side| random.between(1, side.min(3)));
    [rows, columns, height, width]
}

/// A text and a pattern, often of two or three symbols, so that many windows match and many do not.
fn given(random: &mut Random, sides: [usize; 4]) -> TextAndPattern {
    let mut given = TextAndPattern::make(random, sides);
    if random.one_in(2) {
        given.made = "few symbols";
        let size = random.between(2, 3);
        for cells in [&mut given.text, &mut given.pattern] {
            let symbols = random.symbols(size);
            cells.fill_with(|| random.choose(&symbols));
        }
    }
    given
}

/// A text with its listing or with what is none. Once in a while text or pattern is spoilt, whatever the listing is.
fn input(random: &mut Random) -> Input {
    let sides = small_sides(random);
    let given = given(random, sides);
    let mut input = Input::listed(random, given);
    if random.one_in(12) {
        input.unlist(random);
    }
    if random.one_in(4) {
        input.given.spoil(random);
    }
    input
}

/// A text of 40 by 40 cells and a pattern of up to 6 by 6.
fn middle_input(random: &mut Random) -> Input {
    let [height, width] = [(); 2].map(|()| random.between(1, 6));
    let given = given(random, [40, 40, height, width]);
    Input::listed(random, given)
}

/// A text of 255 by 255 cells.
fn large_input(random: &mut Random) -> Input {
    let sides = large_sides(random);
    let given = TextAndPattern::make(random, sides);
    Input::listed(random, given)
}

/// The number and the totals; and the same as the typed wrapper answers it.
type Answer = ((u8, [usize; 2]), Result<Checked, CheckRefusal>);

fn proved(case: &Input) -> Answer {
    let given = &case.given;
    let mut totals = case.totals;
    let outcome = call!(check_into, given, &case.listing, &mut totals);
    let typed = call!(check, given, &case.listing);
    ((number(outcome), totals), typed)
}

fn brute(case: &Input) -> Answer {
    let given = &case.given;
    let answer = call!(brute::check, given, &case.listing);
    let [_, second] = case.totals;
    match answer {
        Ok((found, refused)) => ((0, [found, refused]), Ok(Checked { found, refused })),
        // The place goes to the first total, and the second stays.
        Err((6, Some(at))) => ((6, [at, second]), Err(CheckRefusal::ListingForm { at })),
        Err((7, Some(at))) => ((7, [at, second]), Err(CheckRefusal::ListingFalse { at })),
        Err((number, _)) => {
            let why = Refusal::from_number(number).expect("a number of document 01");
            // Any other refusal leaves both.
            ((number, case.totals), Err(CheckRefusal::Refused(why)))
        }
    }
}

/// The number, and of an accepted listing how many windows are found; of a refused one what is wrong with its first bad
/// record.
fn result(input: &Input, answer: &Answer) -> (u8, &'static str) {
    let ((number, totals), _) = answer;
    let detail = match (*number, *totals) {
        (0, [0, _]) => "none found",
        (0, [_, 0]) => "all found",
        (0, _) => "some found",
        (6, [at, _]) => wrong_form(input, at),
        (7, [at, _]) => match falsehoods(input, at)[..] {
            [] => panic!("nothing is wrong at {at}: {input:?}"),
            [alone] => alone,
            _ => "several",
        },
        _ => "",
    };
    (*number, detail)
}

/// What a case is counted by: where its listing comes from, what was done to it, and what came of it.
type Kind = (&'static str, &'static str, (u8, &'static str));

fn kind(input: &Input, answer: &Answer) -> Kind {
    (input.origin, input.damage, result(input, answer))
}

/// Fails unless the cases of this number have these details, each often enough among them.
fn assert_details(met: &BTreeMap<Kind, u64>, number: u8, details: &[&str]) {
    let of_number = by_part(met, |&(_, _, (other, detail))| {
        (other == number).then_some(detail)
    });
    assert_met(&of_number, details);
}

/// Fails unless every damage was done often enough, and, where text and pattern are good, had the numbers that it can
/// have.
fn assert_damages(met: &BTreeMap<Kind, u64>) {
    let mut names: Vec<&str> = DAMAGES.iter().map(|(name, _, _)| *name).collect();
    names.push("none");
    names.sort();
    assert_met(&by_part(met, |&(_, damage, _)| Some(damage)), &names);
    for (name, _, numbers) in DAMAGES {
        let met = by_part(met, |&(_, damage, (number, _))| {
            (damage == name && ![2, 3, 4].contains(&number)).then_some((name, number))
        });
        let kinds: Vec<_> = numbers.iter().map(|&number| (name, number)).collect();
        assert_met(&met, &kinds);
    }
}

/// The cases of listings that nothing was done to, with a good text and pattern, by where they come from and the
/// number.
fn origins(met: &BTreeMap<Kind, u64>) -> BTreeMap<(&'static str, u8), u64> {
    by_part(met, |&(origin, damage, (number, _))| {
        let whole = damage == "none" && ![2, 3, 4].contains(&number);
        whole.then_some((origin, number))
    })
}

#[test]
fn checks_agree() {
    let operation = Operation {
        name: "check",
        input,
        proved,
        brute,
    };
    let met = operation.compare_on(CASES, kind);
    assert_met(
        &by_part(&met, |&(_, _, (number, _))| Some(number)),
        &[0, 2, 3, 4, 6, 7],
    );
    assert_details(&met, 0, &["all found", "none found", "some found"]);
    assert_details(
        &met,
        6,
        &["cut", "left over", "missing", "not due", "unknown kind"],
    );
    assert_details(
        &met,
        7,
        &[
            "3 of both sides",
            "3 of no side",
            "3 of the window",
            "4 of both sides",
            "4 of no side",
            "4 of the pattern",
            "found",
            "given already",
            "order",
            "outside",
            "pattern symbol",
            "refused",
            "several",
            "text symbol",
            "window",
        ],
    );
    assert_damages(&met);
    // A listing that nothing was done to is accepted, whichever mismatches it has, and what is none is not.
    assert_met(
        &origins(&met),
        &[
            ("bytes", 6),
            ("bytes", 7),
            ("empty", 6),
            ("other mismatches", 0),
            ("records", 6),
            ("records", 7),
            ("search", 0),
        ],
    );
}

#[test]
fn checks_of_middle_texts_agree() {
    let operation = Operation {
        name: "check of middle texts",
        input: middle_input,
        proved,
        brute,
    };
    let met = operation.compare_on(MIDDLE_CASES, kind);
    assert_met(
        &by_part(&met, |&(_, _, (number, _))| Some(number)),
        &[0, 6, 7],
    );
    assert_met(&origins(&met), &[("other mismatches", 0), ("search", 0)]);
    assert_details(&met, 0, &["all found", "none found", "some found"]);
}

#[test]
fn checks_of_large_texts_agree() {
    let operation = Operation {
        name: "check of large texts",
        input: large_input,
        proved,
        brute,
    };
    let met = operation.compare_on(LARGE_CASES, |input, answer| {
        (kind(input, answer), (input.given.height, input.given.width))
    });
    let kinds = by_part(&met, |&(kind, _)| Some(kind));
    assert_met(
        &by_part(&kinds, |&(_, _, (number, _))| Some(number)),
        &[0, 6, 7],
    );
    assert_met(&origins(&kinds), &[("other mismatches", 0), ("search", 0)]);
    let mut sides = LARGE_SIDES;
    sides.sort();
    assert_met(&by_part(&met, |&(_, sides)| Some(sides)), &sides);
}
