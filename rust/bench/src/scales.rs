//! The searches at scales beside the search with stored enlargements: first whether they agree, then how long they
//! take.

use crate::input::Input;
use crate::measure::{proved, time, Lent};
use crate::scale_classes::Scaled;
use colourway::{SearchRefusal, Totals};
use std::time::{Duration, Instant};

/// Each class is measured at least so many times and at least so long at a scale, and so many times at every scale.
pub const ROUNDS: u32 = 5;
pub const LEAST: Duration = Duration::from_millis(40);
pub const EVERY_ROUNDS: u32 = 3;

/// What an operation on lent buffers answers.
type Answer = Result<Totals, SearchRefusal>;

/// The best times of a class: of the searches for stored enlargements, and of the search at a scale or at every scale.
pub struct Times {
    pub totals: Totals,
    pub stored: Duration,
    pub scaled: Duration,
}

fn at_scale(class: &Scaled, lent: &mut Lent) -> Answer {
    call!(search_scaled, class.input, class.scale, lent.lend())
}

fn at_every_scale(input: &Input, lent: &mut Lent) -> Answer {
    call!(search_scales, input, lent.lend())
}

/// The length that a search asks for where it is lent no room for its listing.
fn needed(answer: Answer) -> usize {
    match answer {
        Err(SearchRefusal::ListingBufferShort { needed }) => needed,
        other => panic!("no room for a listing, and the answer is {other:?}"),
    }
}

/// Measures a class at a scale. Before that both searches give the same answer and leave the same buffers, with room
/// for the listing and with one byte too few.
pub fn measure(class: &Scaled) -> Times {
    let stored = class.input.enlarged(class.scale);
    let length = needed(proved(&stored, &mut Lent::of(&stored, 0)));
    for room in [length - 1, length] {
        let mut by_search = Lent::of(&stored, room);
        let mut by_scale = by_search.clone();
        let answer = proved(&stored, &mut by_search);
        assert_eq!(at_scale(class, &mut by_scale), answer, "{}", class.name);
        assert!(by_scale == by_search, "{}: the buffers differ", class.name);
    }
    let mut lent = Lent::of(&stored, length);
    let totals = proved(&stored, &mut lent).expect("there is room for everything");
    let mut times = untimed(totals);
    let start = Instant::now();
    let mut rounds = 0;
    while rounds < ROUNDS || start.elapsed() < LEAST {
        time(&mut times.stored, || proved(&stored, &mut lent));
        time(&mut times.scaled, || at_scale(class, &mut lent));
        rounds += 1;
    }
    times
}

fn untimed(totals: Totals) -> Times {
    Times {
        totals,
        stored: Duration::MAX,
        scaled: Duration::MAX,
    }
}

/// Buffers for every scale: links for the largest, counts and flags for scale 1.
fn lent_for_all(input: &Input, listing: usize) -> Lent {
    let links = input.rows * input.largest_scale() * input.width;
    Lent {
        links: vec![0xA5A5; links],
        ..Lent::of(input, listing)
    }
}

/// The searches for all stored enlargements, in the same buffers; the listing of each goes to the listing's start. The
/// sums of their totals.
fn in_turn(stored: &[Input], lent: &mut Lent) -> Totals {
    let mut sums = Totals {
        found: 0,
        refused: 0,
        length: 0,
    };
    for input in stored {
        let totals = proved(input, lent).expect("there is room for everything");
        sums.found += totals.found;
        sums.refused += totals.refused;
        sums.length += totals.length;
    }
    sums
}

/// Measures a class at every scale. Before that the two give the same sums and leave the same links, counts and flags.
pub fn measure_every(input: &Input) -> Times {
    let scales = 1..=input.largest_scale();
    let stored: Vec<Input> = scales.map(|scale| input.enlarged(scale)).collect();
    let length = needed(at_every_scale(input, &mut lent_for_all(input, 0)));
    let mut by_search = lent_for_all(input, length);
    let mut by_scales = by_search.clone();
    let totals = in_turn(&stored, &mut by_search);
    assert_eq!(at_every_scale(input, &mut by_scales), Ok(totals));
    by_search.listing.clone_from(&by_scales.listing);
    assert!(by_search == by_scales, "the buffers differ");
    let mut times = untimed(totals);
    for _ in 0..EVERY_ROUNDS {
        time(&mut times.stored, || in_turn(&stored, &mut by_search));
        time(&mut times.scaled, || at_every_scale(input, &mut by_scales));
    }
    times
}
