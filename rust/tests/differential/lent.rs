//! What the search, the count, the list and the searches at scales are lent, and what comes of it.

use crate::number;
use crate::random::Random;
use crate::texts::{large_sides, sides, TextAndPattern};
use brute::Buffers;
use colourway::{count_into, list_into, search_into};
use colourway::{CountBuffers, Refusal, SearchRefusal, Totals};

#[derive(Debug)]
pub struct Input {
    pub given: TextAndPattern,
    /// What the buffers and the totals hold before the operation.
    pub lent: Buffers,
    pub totals: [usize; 3],
}

impl Input {
    /// Text and pattern with buffers of noise, of the lengths that `room` finds for the entries that are needed of
    /// links, counts, flags and listing.
    pub fn lend(
        random: &mut Random,
        given: TextAndPattern,
        needed: [usize; 4],
        mut room: impl FnMut(&mut Random, usize) -> usize,
    ) -> Input {
        let [links, counts, flags, listing] = needed.map(|entries| room(random, entries));
        Input {
            given,
            lent: Buffers {
                links: random.noise(links),
                counts: random.noise(counts),
                flags: random.bytes(flags),
                listing: random.bytes(listing),
            },
            totals: [(); 3].map(|()| random.next() as usize),
        }
    }
}

/// An input that is good, or, as often, spoilt and lent buffers that may be too short.
pub fn input(random: &mut Random) -> Input {
    let sides = sides(random);
    let given = TextAndPattern::make(random, sides);
    let needed = given.needed();
    if random.one_in(2) {
        return Input::lend(random, given, needed, Random::enough);
    }
    let mut input = Input::lend(random, given, needed, Random::room);
    input.given.spoil(random);
    input
}

/// A text of 255 by 255 cells. Every other time one of the four buffers is one entry too short.
pub fn large_input(random: &mut Random) -> Input {
    let sides = large_sides(random);
    let given = TextAndPattern::make(random, sides);
    let needed = given.needed();
    lend_nearly(random, given, needed)
}

/// Buffers that have the entries needed; every other time one of the four is one entry too short.
pub fn lend_nearly(random: &mut Random, given: TextAndPattern, needed: [usize; 4]) -> Input {
    let short = random.below(8);
    let mut buffer = 0;
    Input::lend(random, given, needed, |random, entries| {
        buffer += 1;
        if buffer == short {
            entries - 1
        } else {
            random.enough(entries)
        }
    })
}

/// Lends the proved search what the brute force was lent.
pub fn lent_of(buffers: &mut Buffers) -> colourway::Buffers<'_> {
    colourway::Buffers {
        links: &mut buffers.links,
        counts: &mut buffers.counts,
        flags: &mut buffers.flags,
        listing: &mut buffers.listing,
    }
}

/// The same for the proved count, which is lent no listing.
pub fn count_lent_of(buffers: &mut Buffers) -> CountBuffers<'_> {
    CountBuffers {
        links: &mut buffers.links,
        counts: &mut buffers.counts,
        flags: &mut buffers.flags,
    }
}

/// The number of the proved search, which works in what it is lent.
pub fn searched(given: &TextAndPattern, lent: &mut Buffers, totals: &mut [usize; 3]) -> u8 {
    number(call!(search_into, given, lent_of(lent), totals))
}

/// The number of the proved count, which works in what it is lent.
pub fn counted(given: &TextAndPattern, lent: &mut Buffers, totals: &mut [usize; 3]) -> u8 {
    number(call!(count_into, given, count_lent_of(lent), totals))
}

/// The number of the proved list, which reads the flags and works in the rest.
pub fn listed(
    given: &TextAndPattern,
    flags: &[u8],
    listing: &mut [u8],
    totals: &mut [usize; 3],
) -> u8 {
    number(call!(list_into, given, flags, listing, totals))
}

/// The totals afterwards, and the same as a typed wrapper answers it: of the number that the brute force gives, what it
/// returns beside it, and the totals before.
pub fn typed(
    number: u8,
    returned: &[usize],
    before: [usize; 3],
) -> ([usize; 3], Result<Totals, SearchRefusal>) {
    match (number, returned) {
        (0, &[found, refused, length]) => {
            let totals = Totals {
                found,
                refused,
                length,
            };
            ([found, refused, length], Ok(totals))
        }
        (11, &[needed]) => {
            let short = SearchRefusal::ListingBufferShort { needed };
            // The length needed goes to the last total, and the others stay.
            let [first, second, _] = before;
            ([first, second, needed], Err(short))
        }
        _ => {
            let why = Refusal::from_number(number).expect("a number of document 01");
            // Any other refusal leaves all three.
            (before, Err(SearchRefusal::Refused(why)))
        }
    }
}

/// Whether windows are found.
pub fn which_found(found: usize, refused: usize) -> &'static str {
    match (found, refused) {
        (0, _) => "none found",
        (_, 0) => "all found",
        _ => "some found",
    }
}

/// By how much a buffer is too short.
pub fn short_by(length: usize, needed: usize) -> &'static str {
    if length + 1 == needed {
        "by one"
    } else {
        "by more"
    }
}

/// By how much counts or flags are too short.
pub fn windows_short_by(after: &Buffers, windows: usize) -> &'static str {
    let (counts, flags) = (after.counts.len(), after.flags.len());
    match (counts >= windows, flags >= windows) {
        (false, true) if counts + 1 == windows => "by one count",
        (true, false) if flags + 1 == windows => "by one flag",
        _ => "by more",
    }
}

/// The number, and of an accepted search how many windows are found; of a buffer that is too short for this text and
/// this pattern whether by one entry.
pub fn result(
    given: &TextAndPattern,
    number: u8,
    totals: [usize; 3],
    after: &Buffers,
) -> (u8, &'static str) {
    let detail = match (number, totals) {
        (0, [found, refused, _]) => which_found(found, refused),
        (9, _) => short_by(after.links.len(), given.rows * given.width),
        (10, _) => windows_short_by(after, given.windows()),
        (11, [_, _, needed]) => short_by(after.listing.len(), needed),
        _ => "",
    };
    (number, detail)
}
