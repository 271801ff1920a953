//! The search at every scale that fits: against the brute force, against the library's own search with stored
//! enlargements, and against its search at each scale in turn.

mod parts;

use crate::coarse::large::middle_scales_input;
use crate::coarse::{agree, cells_refusal, scales_input, Answer};
use crate::lent::{lent_of, searched, short_by, typed, which_found, windows_short_by, Input};
use crate::random::Random;
use crate::texts::{TextAndPattern, MADE};
use crate::{assert_met, by_part, number, Operation, CASES};
use brute::Buffers;
use colourway::{search_scaled_into, search_scales, search_scales_into, SearchRefusal, Totals};
use std::collections::BTreeMap;

/// How many texts of up to 40 by 40 cells one symbol is tried on, and how many of about 100 by 100 other patterns,
/// apart from the others.
const SYMBOL_CASES: u64 = 30;
const MIDDLE_CASES: u64 = 1_000;

/// The library's search at every scale.
fn at_every_scale(input: &Input) -> Answer {
    let mut after = input.lent.clone();
    let mut totals = input.totals;
    let lent = lent_of(&mut after);
    let number = number(call!(search_scales_into, &input.given, lent, &mut totals));
    (number, totals, after)
}

/// With the totals as the typed wrapper answers them.
type Typed = (Answer, Result<Totals, SearchRefusal>);

fn proved(input: &Input) -> Typed {
    let mut lent = input.lent.clone();
    let typed = call!(search_scales, &input.given, lent_of(&mut lent));
    (at_every_scale(input), typed)
}

fn brute(input: &Input) -> Typed {
    let (number, returned, after) = brute::search_scales(input.given.given(), &input.lent);
    let (totals, typed) = typed(number, &returned, input.totals);
    ((number, totals, after), typed)
}

/// 17 where no scale fits, 9 at the largest scale, 10 at scale 1; else 0.
fn room_refusal(given: &TextAndPattern, lent: &Buffers) -> u8 {
    let largest = given.largest_scale();
    if largest == 0 {
        return 17;
    }
    let windows = given.windows();
    let links = given.rows * largest * given.width;
    match (
        lent.links.len() < links,
        lent.flags.len().min(lent.counts.len()) < windows,
    ) {
        (true, _) => 9,
        (_, true) => 10,
        _ => 0,
    }
}

/// A search at one scale, which works in the buffers that all scales are lent.
type AtScale = fn(&TextAndPattern, usize, &mut Buffers, &mut [usize; 3]) -> u8;

/// The library's search with the stored enlargement as its pattern.
fn stored(given: &TextAndPattern, k: usize, lent: &mut Buffers, totals: &mut [usize; 3]) -> u8 {
    searched(&given.enlarged(k), lent, totals)
}

/// The library's search at a scale.
fn scaled(given: &TextAndPattern, k: usize, lent: &mut Buffers, totals: &mut [usize; 3]) -> u8 {
    number(call!(search_scaled_into, given, k, lent_of(lent), totals))
}

/// Every scale in turn: the buffers go from one to the next, the listings are put together, the totals added up.
fn in_turn(input: &Input, at_scale: AtScale) -> Answer {
    let given = &input.given;
    let refusal = cells_refusal(given).unwrap_or_else(|| room_refusal(given, &input.lent));
    if refusal != 0 {
        return (refusal, input.totals, input.lent.clone());
    }
    let mut after = input.lent.clone();
    // There are at least as many windows at scale 1 as at any other.
    after.listing = vec![0; given.longest_listing()];
    let mut listings = Vec::new();
    let mut sums = [0; 3];
    for k in 1..=given.largest_scale() {
        let mut totals = [0; 3];
        assert_eq!(at_scale(given, k, &mut after, &mut totals), 0);
        listings.extend(&after.listing[..totals[2]]);
        sums = std::array::from_fn(|at| sums[at] + totals[at]);
    }
    after.listing.clone_from(&input.lent.listing);
    if after.listing.len() < sums[2] {
        let [first, second, _] = input.totals;
        return (11, [first, second, sums[2]], after);
    }
    after.listing[..sums[2]].copy_from_slice(&listings);
    (0, sums, after)
}

fn by_stored(input: &Input) -> Answer {
    in_turn(input, stored)
}

fn by_scaled(input: &Input) -> Answer {
    in_turn(input, scaled)
}

/// Of a listing buffer that is too short: whether by a byte, and whether the first scale's listing has room in it.
fn listing_short_by(input: &Input, needed: usize) -> &'static str {
    let room = input.lent.listing.len();
    match short_by(room, needed) {
        "by one" => "by one",
        _ if room >= input.given.listing_length() => "room for the first",
        _ => "by more",
    }
}

/// What came of an input; and of an accepted one how many scales there are, and how it was made.
type Kind = ((u8, &'static str), Option<(&'static str, &'static str)>);

fn kind(input: &Input, answer: &Answer) -> Kind {
    let (number, totals, after) = answer;
    let given = &input.given;
    let detail = match (number, totals) {
        (0, &[found, refused, _]) => which_found(found, refused),
        (9, _) => short_by(
            after.links.len(),
            given.rows * given.largest_scale() * given.width,
        ),
        (10, _) => windows_short_by(after, given.windows()),
        (11, &[_, _, needed]) => listing_short_by(input, needed),
        _ => "",
    };
    let accepted = (*number == 0).then(|| {
        let scales = match given.largest_scale() {
            1 => "one",
            2 => "two",
            _ => "more",
        };
        (scales, given.made)
    });
    ((*number, detail), accepted)
}

/// Fails unless all kinds came up.
fn assert_kinds(met: &BTreeMap<Kind, u64>) {
    assert_met(
        &by_part(met, |&(detail, _)| Some(detail)),
        &[
            (0, "all found"),
            (0, "none found"),
            (0, "some found"),
            (2, ""),
            (3, ""),
            (9, "by more"),
            (9, "by one"),
            (10, "by more"),
            (10, "by one count"),
            (10, "by one flag"),
            (11, "by more"),
            (11, "by one"),
            (11, "room for the first"),
            (17, ""),
        ],
    );
    assert_met(
        &by_part(met, |&(_, accepted)| Some(accepted?.0)),
        &["more", "one", "two"],
    );
    assert_met(&by_part(met, |&(_, accepted)| Some(accepted?.1)), &MADE);
}

#[test]
fn searches_at_every_scale_agree() {
    let operation = Operation {
        name: "search at every scale",
        input: scales_input,
        proved,
        brute,
    };
    let met = operation.compare_on(2 * CASES, |input, (answer, _)| kind(input, answer));
    assert_kinds(&met);
}

#[test]
fn the_search_at_every_scale_is_the_search_for_each_enlargement() {
    let name = "search at every scale, by stored enlargements";
    let ways = [at_every_scale, by_stored];
    assert_kinds(&agree((name, CASES), scales_input, ways, kind));
}

#[test]
fn the_search_at_every_scale_is_the_search_at_each_in_turn() {
    let name = "search at every scale, scale by scale";
    let ways = [at_every_scale, by_scaled];
    assert_kinds(&agree((name, CASES), scales_input, ways, kind));
}

#[test]
fn the_search_of_a_middle_text_at_every_scale_is_the_search_for_each_enlargement() {
    let named = ("search of middle texts at every scale", MIDDLE_CASES);
    let ways = [at_every_scale, by_stored];
    let met = agree(named, middle_scales_input, ways, kind);
    let accepted = by_part(&met, |&(_, accepted)| Some(accepted?.0));
    assert_met(&accepted, &["more", "one", "two"]);
}

/// A pattern of one cell, in a text of up to 40 by 40.
fn one_symbol(random: &mut Random) -> Input {
    let [rows, columns] = [(); 2].map(|()| random.between(13, 40));
    let mut given = TextAndPattern::make(random, [rows, columns, 1, 1]);
    // Parts of the text are constant, so that windows at larger scales are found.
    let symbol = random.byte();
    let [tall, wide] = [rows, columns].map(|side| random.between(1, side));
    for row in given.text.chunks_mut(columns).take(tall) {
        row[..wide].fill(symbol);
    }
    let needed = given.needed_at_every_scale();
    Input::lend(random, given, needed, Random::enough)
}

#[test]
fn one_symbol_at_every_scale_agrees() {
    let operation = Operation {
        name: "one symbol at every scale",
        input: one_symbol,
        proved,
        brute,
    };
    let met = operation.compare_on(SYMBOL_CASES, |_, ((number, _, _), _)| *number);
    assert_met(&met, &[0]);
}

/// A text of 255 by 255 cells with a constant part, and one symbol: all scales up to 255. The sum of refused windows
/// and of found ones is above 65,535. Its listing's buffer is right, or a byte too short.
#[test]
fn one_symbol_in_a_text_of_255_by_255() {
    let random = &mut Random::of_case("one symbol in the largest text", 0);
    let mut text: Vec<u8> = (0..255 * 255).map(|_| random.choose(&[3, 4])).collect();
    for row in text.chunks_mut(255).skip(20).take(200) {
        row[10..210].fill(7);
    }
    let mut given = TextAndPattern::make(random, [255, 255, 1, 1]);
    given.text = text;
    let entries = 255 * 255;
    let windows = 5_559_680;
    let mut input = Input::lend(
        random,
        given,
        [entries, entries, entries, windows * 7],
        Random::enough,
    );
    let (number, totals, after) = by_stored(&input);
    assert_eq!((number, totals[0] + totals[1]), (0, windows));
    assert!(totals[0] > 65_535 && totals[1] > 65_535, "{totals:?}");
    assert!(at_every_scale(&input) == (number, totals, after.clone()));

    input.lent.listing.truncate(totals[2] - 1);
    let (number, short, left) = at_every_scale(&input);
    assert_eq!((number, short[2]), (11, totals[2]));
    assert!(left.listing == input.lent.listing);
    assert!([left.links, left.counts] == [after.links, after.counts] && left.flags == after.flags);
}
