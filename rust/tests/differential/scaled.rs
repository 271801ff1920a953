//! The search at a scale: against the brute force, and against the library's own search with a stored enlargement.

use crate::coarse::large::{large_scaled_input, middle_scaled_input, LARGE_SCALES};
use crate::coarse::{agree, cells_refusal, scaled_input, Answer, Scaled};
use crate::lent::{lent_of, result, searched, typed};
use crate::random::Random;
use crate::texts::MADE;
use crate::{assert_met, by_part, number, Operation, CASES};
use colourway::{check, search_scaled, search_scaled_into, Checked, SearchRefusal, Totals};
use std::collections::BTreeMap;

/// How many middle and large texts are tried, apart from the others.
const MIDDLE_CASES: u64 = 10_000;
const LARGE_CASES: u64 = 100;

/// The library's search at a scale.
fn at_scale(case: &Scaled) -> Answer {
    let input = &case.input;
    let mut after = input.lent.clone();
    let mut totals = input.totals;
    let lent = lent_of(&mut after);
    let number = number(call!(
        search_scaled_into,
        &input.given,
        case.scale,
        lent,
        &mut totals
    ));
    (number, totals, after)
}

/// With the totals as the typed wrapper answers them.
type Typed = (Answer, Result<Totals, SearchRefusal>);

fn proved(case: &Scaled) -> Typed {
    let mut lent = case.input.lent.clone();
    let given = &case.input.given;
    let typed = call!(search_scaled, given, case.scale, lent_of(&mut lent));
    (at_scale(case), typed)
}

fn brute(case: &Scaled) -> Typed {
    let input = &case.input;
    let (number, returned, after) =
        brute::search_scaled(input.given.given(), case.scale, &input.lent);
    let (totals, typed) = typed(number, &returned, input.totals);
    ((number, totals, after), typed)
}

/// Whether the enlarged pattern of good sides fits, in each direction.
fn fits(case: &Scaled) -> [bool; 2] {
    let given = &case.input.given;
    let scale = case.scale;
    [
        scale <= given.rows / given.height,
        scale <= given.columns / given.width,
    ]
}

/// The library's own search with the stored enlargement as its pattern.
fn by_search(case: &Scaled) -> Answer {
    let input = &case.input;
    let mut after = input.lent.clone();
    let mut totals = input.totals;
    let number = match cells_refusal(&input.given) {
        Some(refusal) => refusal,
        None if case.scale == 0 || fits(case) != [true; 2] => 17,
        None => {
            let enlarged = input.given.enlarged(case.scale);
            searched(&enlarged, &mut after, &mut totals)
        }
    };
    (number, totals, after)
}

/// The number, and what it is given for.
fn detail(case: &Scaled, answer: &Answer) -> (u8, &'static str) {
    let (number, totals, after) = answer;
    // A side of 0 cannot be divided by.
    if [2, 3].contains(number) {
        return (*number, "");
    }
    match (number, fits(case)) {
        (17, _) if case.scale == 0 => (17, "scale 0"),
        (17, [false, true]) => (17, "too tall"),
        (17, [true, false]) => (17, "too wide"),
        (17, _) => (17, "both"),
        _ => {
            let enlarged = case.input.given.enlarged(case.scale);
            result(&enlarged, *number, *totals, after)
        }
    }
}

/// Which scale it is, of one that fits.
fn which_scale(case: &Scaled) -> &'static str {
    match (case.scale, case.input.given.largest_scale()) {
        (1, 1) => "the only one",
        (1, _) => "1",
        (scale, largest) if scale == largest => "the largest",
        _ => "between",
    }
}

/// What came of a case; and of an accepted one its scale, and how it was made.
type Kind = ((u8, &'static str), Option<(&'static str, &'static str)>);

fn kind(case: &Scaled, answer: &Answer) -> Kind {
    let accepted = answer.0 == 0;
    let scale = accepted.then(|| (which_scale(case), case.input.given.made));
    (detail(case, answer), scale)
}

/// What has to come up, of small texts.
const DETAILS: [(u8, &str); 16] = [
    (0, "all found"),
    (0, "none found"),
    (0, "some found"),
    (2, ""),
    (3, ""),
    (9, "by more"),
    (9, "by one"),
    (10, "by more"),
    (10, "by one count"),
    (10, "by one flag"),
    (11, "by more"),
    (11, "by one"),
    (17, "both"),
    (17, "scale 0"),
    (17, "too tall"),
    (17, "too wide"),
];

/// Fails unless all kinds came up.
fn assert_kinds(met: &BTreeMap<Kind, u64>) {
    assert_met(&by_part(met, |&(detail, _)| Some(detail)), &DETAILS);
    assert_met(
        &by_part(met, |&(_, accepted)| Some(accepted?.0)),
        &["1", "between", "the largest", "the only one"],
    );
    assert_met(&by_part(met, |&(_, accepted)| Some(accepted?.1)), &MADE);
}

#[test]
fn searches_at_a_scale_agree() {
    let operation = Operation {
        name: "search at a scale",
        input: scaled_input,
        proved,
        brute,
    };
    let met = operation.compare_on(2 * CASES, |case, (answer, _)| kind(case, answer));
    assert_kinds(&met);
}

#[test]
fn the_search_at_a_scale_is_the_search_for_the_enlargement() {
    let name = "search at a scale, by a stored enlargement";
    let met = agree((name, 2 * CASES), scaled_input, [at_scale, by_search], kind);
    assert_kinds(&met);
}

#[test]
fn the_search_of_a_middle_text_at_a_scale_is_the_search_for_the_enlargement() {
    let named = ("search of middle texts at a scale", MIDDLE_CASES);
    let met = agree(named, middle_scaled_input, [at_scale, by_search], kind);
    let accepted = by_part(&met, |&((number, found), _)| (number == 0).then_some(found));
    assert_met(&accepted, &["all found", "none found", "some found"]);
}

#[test]
fn the_search_of_a_large_text_at_a_scale_is_the_search_for_the_enlargement() {
    let name = "search of large texts at a scale";
    let ways: [fn(&Scaled) -> Answer; 2] = [at_scale, by_search];
    let sides = |case: &Scaled, answer: &Answer| {
        let given = &case.input.given;
        (answer.0, (given.height, given.width, case.scale))
    };
    let met = agree((name, LARGE_CASES), large_scaled_input, ways, sides);
    assert_met(&by_part(&met, |&(number, _)| Some(number)), &[0, 9, 10]);
    let mut scales = LARGE_SCALES;
    scales.sort();
    assert_met(&by_part(&met, |&(_, sides)| Some(sides)), &scales);
}

/// The check with the stored enlargement as its pattern.
#[test]
fn listings_at_a_scale_pass_the_check() {
    let mut passed = 0;
    for case in 0..CASES {
        let case = scaled_input(&mut Random::of_case("check at a scale", case));
        let (number, [found, refused, length], after) = at_scale(&case);
        if number == 0 {
            let enlarged = case.input.given.enlarged(case.scale);
            let checked = call!(check, &enlarged, &after.listing[..length]);
            assert_eq!(checked, Ok(Checked { found, refused }), "{case:?}");
            passed += 1;
        }
    }
    assert!(passed > CASES / 2, "{passed} were accepted");
}
