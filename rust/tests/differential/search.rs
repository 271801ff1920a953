//! The search with its listing.

use crate::lent::{input, large_input, lent_of, result, searched, typed, Input};
use crate::texts::{LARGE_SIDES, MADE};
use crate::{assert_met, by_part, Operation, CASES};
use brute::Buffers;
use colourway::{search, SearchRefusal, Totals};
use std::collections::BTreeMap;

/// How many texts of 255 by 255 cells the search is tried on, apart from the others.
const LARGE_CASES: u64 = 100;

/// The number, the totals and the buffers; and the totals as the typed wrapper answers them.
type Answer = ((u8, [usize; 3], Buffers), Result<Totals, SearchRefusal>);

fn proved(case: &Input) -> Answer {
    let given = &case.given;
    let mut after = case.lent.clone();
    let mut totals = case.totals;
    let number = searched(given, &mut after, &mut totals);
    let typed = call!(search, given, lent_of(&mut case.lent.clone()));
    ((number, totals, after), typed)
}

fn brute(case: &Input) -> Answer {
    let (number, returned, after) = case.given.search(&case.lent);
    let (totals, typed) = typed(number, &returned, case.totals);
    ((number, totals, after), typed)
}

/// Whether a listing has mismatches of kind 3 and of kind 4.
fn mismatches(listing: &[u8]) -> (bool, bool) {
    let mut has = (false, false);
    let mut at = 0;
    loop {
        let (number, record, next) = brute::read(listing, at);
        if number != 0 {
            return has;
        }
        has.0 |= record[0] == 3;
        has.1 |= record[0] == 4;
        at = next;
    }
}

/// What a case is counted by: how it was made, what is special about its sides, what came of it, and which mismatches
/// it has.
type Kind = (
    &'static str,
    &'static str,
    (u8, &'static str),
    Option<(bool, bool)>,
);

fn kind(input: &Input, answer: &Answer) -> Kind {
    let ((number, totals, after), typed) = answer;
    let kinds = typed
        .is_ok()
        .then(|| mismatches(&after.listing[..totals[2]]));
    (
        input.given.made,
        input.given.shape,
        result(&input.given, *number, *totals, after),
        kinds,
    )
}

/// The accepted cases by how they were made.
fn made(met: &BTreeMap<Kind, u64>) -> BTreeMap<&'static str, u64> {
    by_part(met, |&(made, _, (number, _), _)| {
        (number == 0).then_some(made)
    })
}

#[test]
fn searches_agree() {
    let operation = Operation {
        name: "search",
        input,
        proved,
        brute,
    };
    // Twice as many as of the others, so that as many are accepted.
    let met = operation.compare_on(2 * CASES, kind);
    assert_met(
        &by_part(&met, |&(_, _, result, _)| Some(result)),
        &[
            (0, "all found"),
            (0, "none found"),
            (0, "some found"),
            (2, ""),
            (3, ""),
            (4, ""),
            (9, "by more"),
            (9, "by one"),
            (10, "by more"),
            (10, "by one count"),
            (10, "by one flag"),
            (11, "by more"),
            (11, "by one"),
        ],
    );
    assert_met(&made(&met), &MADE);
    let accepted_shapes = by_part(&met, |&(_, shape, (number, _), _)| {
        (number == 0).then_some(shape)
    });
    assert_met(
        &accepted_shapes,
        &[
            "1 by 255",
            "255 by 1",
            "as large as the text",
            "neither",
            "one column",
            "one row",
        ],
    );
    assert_met(
        &by_part(&met, |&(_, _, _, mismatches)| mismatches),
        &[(false, false), (false, true), (true, false), (true, true)],
    );
}

#[test]
fn searches_of_large_texts_agree() {
    let operation = Operation {
        name: "search of large texts",
        input: large_input,
        proved,
        brute,
    };
    let met = operation.compare_on(LARGE_CASES, |input, answer| {
        (kind(input, answer), (input.given.height, input.given.width))
    });
    assert_met(
        &by_part(&met, |&((_, _, result, _), _)| Some(result)),
        &[
            (0, "all found"),
            (0, "none found"),
            (0, "some found"),
            (9, "by one"),
            (10, "by one count"),
            (10, "by one flag"),
            (11, "by one"),
        ],
    );
    assert_met(&made(&by_part(&met, |&(kind, _)| Some(kind))), &MADE);
    let accepted_sides = by_part(&met, |&((_, _, (number, _), _), sides)| {
        (number == 0).then_some(sides)
    });
    let mut sides = LARGE_SIDES;
    sides.sort();
    assert_met(&accepted_sides, &sides);
}
