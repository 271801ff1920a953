//! The list, the search's second half: with flags that are true or not.

use crate::lent::{listed, short_by, typed, which_found};
use crate::random::Random;
use crate::texts::{sides, TextAndPattern};
use crate::{assert_met, by_part, Operation, CASES};
use colourway::{list, SearchRefusal, Totals};

#[derive(Debug)]
struct Input {
    given: TextAndPattern,
    /// Where the flags come from.
    origin: &'static str,
    flags: Vec<u8>,
    /// What the listing buffer and the totals hold before the operation.
    listing: Vec<u8>,
    totals: [usize; 3],
}

/// A flag for each window, and where they come from. Text or pattern may change: then the flags are those of before.
fn flags(random: &mut Random, given: &mut TextAndPattern) -> (&'static str, Vec<u8>) {
    let mut flags = given.flags();
    let origin = match random.below(8) {
        0 => {
            let window = random.place(flags.len() - 1);
            let other = flags[window].wrapping_add(random.between(1, 255) as u8);
            flags[window] = random.choose(&[1 - flags[window], 2, 255, other]);
            "one changed"
        }
        1 => {
            given.change_one_cell(random);
            "before a change"
        }
        2 => {
            flags.fill_with(|| random.choose(&[0, 1]));
            "by chance"
        }
        3 => {
            flags.fill(random.choose(&[0, 1]));
            "all alike"
        }
        _ => "the truth",
    };
    (origin, flags)
}

/// A good text and pattern, or, every other time, spoilt ones and buffers that may be too short.
fn input(random: &mut Random) -> Input {
    let sides = sides(random);
    let mut given = TextAndPattern::make(random, sides);
    let (origin, mut flags) = flags(random, &mut given);
    let good = random.one_in(2);
    let room = if good { Random::enough } else { Random::room };
    let length = room(random, flags.len());
    let noise = random.bytes(length.saturating_sub(flags.len()));
    flags.truncate(length);
    flags.extend(noise);
    let length = Random::room(random, given.listing_length());
    let listing = random.bytes(length);
    if !good {
        given.spoil(random);
    }
    Input {
        given,
        origin,
        flags,
        listing,
        totals: [(); 3].map(|()| random.next() as usize),
    }
}

/// The number, the totals and the listing buffer; and the totals as the typed wrapper answers them.
type Answer = ((u8, [usize; 3], Vec<u8>), Result<Totals, SearchRefusal>);

fn proved(case: &Input) -> Answer {
    let given = &case.given;
    let mut after = case.listing.clone();
    let mut totals = case.totals;
    let number = listed(given, &case.flags, &mut after, &mut totals);
    let typed = call!(list, given, &case.flags, &mut case.listing.clone());
    ((number, totals, after), typed)
}

fn brute(case: &Input) -> Answer {
    let (number, returned, after) = brute::list(case.given.given(), &case.flags, &case.listing);
    let (totals, typed) = typed(number, &returned, case.totals);
    ((number, totals, after), typed)
}

/// Of flags that are refused by 16: how many are not the truth, and whether the listing has room.
fn falsehood(input: &Input) -> &'static str {
    let truth = input.given.flags();
    let differ = |window: &usize| input.flags[*window] != truth[*window];
    let wrong: Vec<usize> = (0..truth.len()).filter(differ).collect();
    let has_room = input.listing.len() >= input.given.listing_length();
    match (&wrong[..], has_room) {
        ([], _) => panic!("nothing is wrong: {input:?}"),
        (_, false) => "and no room",
        ([window], true) if window + 1 == truth.len() => "the last alone",
        ([_], true) => "one alone",
        (_, true) => "several",
    }
}

/// The number, and what it is given for.
fn result(input: &Input, number: u8, totals: [usize; 3]) -> (u8, &'static str) {
    let detail = match (number, totals) {
        (0, [found, refused, _]) => which_found(found, refused),
        (10, _) => short_by(input.flags.len(), input.given.windows()),
        (11, [_, _, needed]) => short_by(input.listing.len(), needed),
        (16, _) => falsehood(input),
        _ => "",
    };
    (number, detail)
}

#[test]
fn listing_agrees() {
    let operation = Operation {
        name: "list",
        input,
        proved,
        brute,
    };
    let met = operation.compare_on(2 * CASES, |input, ((number, totals, _), _)| {
        (input.origin, result(input, *number, *totals))
    });
    assert_met(
        &by_part(&met, |&(_, result)| Some(result)),
        &[
            (0, "all found"),
            (0, "none found"),
            (0, "some found"),
            (2, ""),
            (3, ""),
            (4, ""),
            (10, "by more"),
            (10, "by one"),
            (11, "by more"),
            (11, "by one"),
            (16, "and no room"),
            (16, "one alone"),
            (16, "several"),
            (16, "the last alone"),
        ],
    );
    // Whichever flags are the truth are accepted, wherever they come from. A single one changed never is it.
    let judged = by_part(&met, |&(origin, (number, _))| {
        [0, 16].contains(&number).then_some((origin, number))
    });
    assert_met(
        &judged,
        &[
            ("all alike", 0),
            ("all alike", 16),
            ("before a change", 0),
            ("before a change", 16),
            ("by chance", 0),
            ("by chance", 16),
            ("one changed", 16),
            ("the truth", 0),
        ],
    );
}
