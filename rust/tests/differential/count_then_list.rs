//! The search is the count followed by the list: number, totals and every buffer, also where one of them refuses.

use crate::lent::{counted, input, large_input, listed, result, searched, Input};
use crate::random::{Random, SEED};
use crate::texts::{LARGE_SIDES, MADE};
use crate::{assert_met, by_part, CASES};
use brute::Buffers;
use std::collections::BTreeMap;

/// How many texts of 255 by 255 cells they are tried on, apart from the others.
const LARGE_CASES: u64 = 100;

/// The number, the totals and the buffers.
type Answer = (u8, [usize; 3], Buffers);

/// Where the count refuses, that is the answer, and the list is not run. Where it accepts, the answer is the list's on
/// the flags that the count left.
fn count_then_list(case: &Input) -> Answer {
    let mut after = case.lent.clone();
    let mut first = case.totals;
    let number = counted(&case.given, &mut after, &mut first);
    if number != 0 {
        return (number, first, after);
    }
    let mut second = case.totals;
    let Buffers { flags, listing, .. } = &mut after;
    let number = listed(&case.given, flags, listing, &mut second);
    if number == 0 {
        assert_eq!(second, first, "the same three numbers: {case:?}");
    }
    assert_eq!(second[2], first[2], "the length: {case:?}");
    (number, second, after)
}

fn search(case: &Input) -> Answer {
    let mut after = case.lent.clone();
    let mut totals = case.totals;
    let number = searched(&case.given, &mut after, &mut totals);
    (number, totals, after)
}

/// How a case was made, the pattern's sides, and what came of it.
type Kind = (&'static str, (usize, usize), (u8, &'static str));

/// Fails unless the two agree on that many cases, and none is refused by 16. What the cases were.
fn agree(name: &str, cases: u64, input: fn(&mut Random) -> Input) -> BTreeMap<Kind, u64> {
    let mut met = BTreeMap::new();
    for case in 0..cases {
        let input = input(&mut Random::of_case(name, case));
        let at_once = search(&input);
        let in_two = count_then_list(&input);
        assert!(
            at_once == in_two,
            "{name}: seed {SEED:#x}, case {case}\n  input: {input:?}\n  search: {at_once:?}\n  count, then list: \
             {in_two:?}",
        );
        let (number, totals, after) = at_once;
        assert_ne!(number, 16, "the search has no flags to judge: {input:?}");
        let sides = (input.given.height, input.given.width);
        let kind = (
            input.given.made,
            sides,
            result(&input.given, number, totals, &after),
        );
        *met.entry(kind).or_insert(0) += 1;
    }
    met
}

#[test]
fn the_search_is_the_count_and_then_the_list() {
    let met = agree("count, then list", 2 * CASES, input);
    assert_met(
        &by_part(&met, |&(_, _, (number, _))| Some(number)),
        &[0, 2, 3, 4, 9, 10, 11],
    );
    let accepted = |&(made, _, (number, _)): &Kind| (number == 0).then_some(made);
    assert_met(&by_part(&met, accepted), &MADE);
}

/// Constant texts, repeated ones such as stripes, and random ones.
#[test]
fn the_search_of_a_large_text_is_the_count_and_then_the_list() {
    let met = agree("count, then list, of large texts", LARGE_CASES, large_input);
    assert_met(
        &by_part(&met, |&(_, _, result)| Some(result)),
        &[
            (0, "all found"),
            (0, "none found"),
            (0, "some found"),
            (9, "by one"),
            (10, "by one count"),
            (10, "by one flag"),
            (11, "by one"),
        ],
    );
    let accepted = |&(made, _, (number, _)): &Kind| (number == 0).then_some(made);
    assert_met(&by_part(&met, accepted), &MADE);
    let mut sides = LARGE_SIDES;
    sides.sort();
    assert_met(&by_part(&met, |&(_, sides, _)| Some(sides)), &sides);
}
