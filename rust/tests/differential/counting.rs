//! The count, the search's first half.

use crate::lent::{count_lent_of, counted, input, large_input, result, typed, Input};
use crate::texts::MADE;
use crate::{assert_met, by_part, Operation, CASES};
use brute::Buffers;
use colourway::{count, Refusal, SearchRefusal, Totals};

/// How many texts of 255 by 255 cells the count is tried on, apart from the others.
const LARGE_CASES: u64 = 50;

/// The number, the totals and the buffers; and the totals as the typed wrapper answers them.
type Answer = ((u8, [usize; 3], Buffers), Result<Totals, Refusal>);

fn proved(case: &Input) -> Answer {
    let given = &case.given;
    let mut after = case.lent.clone();
    let mut totals = case.totals;
    let number = counted(given, &mut after, &mut totals);
    let typed = call!(count, given, count_lent_of(&mut case.lent.clone()));
    ((number, totals, after), typed)
}

fn brute(case: &Input) -> Answer {
    let (number, returned, after) = brute::count(case.given.given(), &case.lent);
    let (totals, typed) = typed(number, &returned, case.totals);
    let typed = typed.map_err(SearchRefusal::refusal);
    ((number, totals, after), typed)
}

/// How a case was made, and what came of it.
fn kind(input: &Input, answer: &Answer) -> (&'static str, (u8, &'static str)) {
    let ((number, totals, after), _) = answer;
    (
        input.given.made,
        result(&input.given, *number, *totals, after),
    )
}

/// The input has a listing buffer too, often too short: the count is not lent it, and has no 11.
#[test]
fn counting_agrees() {
    let operation = Operation {
        name: "count",
        input,
        proved,
        brute,
    };
    let met = operation.compare_on(2 * CASES, kind);
    assert_met(
        &by_part(&met, |&(_, result)| Some(result)),
        &[
            (0, "all found"),
            (0, "none found"),
            (0, "some found"),
            (2, ""),
            (3, ""),
            (4, ""),
            (9, "by more"),
            (9, "by one"),
            (10, "by more"),
            (10, "by one count"),
            (10, "by one flag"),
        ],
    );
    let accepted = by_part(&met, |&(made, (number, _))| (number == 0).then_some(made));
    assert_met(&accepted, &MADE);
}

#[test]
fn counting_in_large_texts_agrees() {
    let operation = Operation {
        name: "count in large texts",
        input: large_input,
        proved,
        brute,
    };
    let met = operation.compare_on(LARGE_CASES, kind);
    assert_met(
        &by_part(&met, |&(_, result)| Some(result)),
        &[
            (0, "all found"),
            (0, "none found"),
            (0, "some found"),
            (9, "by one"),
            (10, "by one count"),
            (10, "by one flag"),
        ],
    );
}
