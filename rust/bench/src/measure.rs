//! Both programs on one input: first whether they agree, then how long they take.

use crate::input::Input;
use crate::plain;
use colourway::{distinct_counts, strip_links};
use colourway::{Buffers, Checked, CountBuffers, SearchRefusal, Totals};
use std::time::{Duration, Instant};

/// Each class is measured at least so many times and at least so long.
pub const ROUNDS: u32 = 9;
pub const LEAST: Duration = Duration::from_millis(200);

/// The buffers of a search, which own what they lend.
#[derive(Clone, PartialEq)]
pub struct Lent {
    pub links: Vec<u16>,
    pub counts: Vec<u16>,
    pub flags: Vec<u8>,
    pub listing: Vec<u8>,
}

impl Lent {
    /// Buffers as long as the search needs them, but for the listing, which has this length. They hold noise.
    pub fn of(input: &Input, listing: usize) -> Lent {
        Lent {
            links: vec![0xA5A5; input.rows * input.width],
            counts: vec![0xA5A5; input.windows()],
            flags: vec![0xA5; input.windows()],
            listing: vec![0xA5; listing],
        }
    }

    pub fn lend(&mut self) -> Buffers<'_> {
        Buffers {
            links: &mut self.links,
            counts: &mut self.counts,
            flags: &mut self.flags,
            listing: &mut self.listing,
        }
    }
}

/// The proved search.
pub fn proved(input: &Input, lent: &mut Lent) -> Result<Totals, SearchRefusal> {
    call!(search, input, lent.lend())
}

/// The proved count, the search's first half.
fn counted(input: &Input, lent: &mut Lent) -> Totals {
    let buffers = CountBuffers {
        links: &mut lent.links,
        counts: &mut lent.counts,
        flags: &mut lent.flags,
    };
    call!(count, input, buffers).expect("there is room for a count")
}

/// The proved list, its second half, on the flags that it is lent.
fn listed(input: &Input, lent: &mut Lent) -> Result<Totals, SearchRefusal> {
    call!(list, input, &lent.flags, &mut lent.listing)
}

/// Fails unless the count and then the list give what the search gave: the answer and every buffer.
fn compare_halves(input: &Input, answer: Result<Totals, SearchRefusal>, after: &Lent) {
    let mut in_two = Lent::of(input, after.listing.len());
    let counted = counted(input, &mut in_two);
    let listed = listed(input, &mut in_two);
    assert_eq!(listed, answer, "the list, after the count");
    assert!(in_two == *after, "the buffers of count and list differ");
    match answer {
        Ok(totals) => assert_eq!(counted, totals),
        Err(SearchRefusal::ListingBufferShort { needed }) => assert_eq!(counted.length, needed),
        Err(why) => panic!("the search is {why}"),
    }
}

/// The proved counts.
fn proved_counts(input: &Input, counts: &mut [u16]) {
    distinct_counts(
        &input.text,
        input.rows,
        input.columns,
        input.height,
        input.width,
        counts,
    )
    .expect("the counts of all windows");
}

/// The proved check of a listing, which it accepts.
fn checked(input: &Input, listing: &[u8]) -> Checked {
    call!(check, input, listing).expect("the listing is the search's")
}

/// Two sets of buffers after a proved search: with room for the listing, and with a byte too few.
pub struct Searched {
    pub totals: Totals,
    pub full: Lent,
    pub short: Lent,
}

/// Fails unless the two programs agree on the input, and the count and then the list agree with both: the answer and
/// every buffer, with room for the listing and with one byte too few, and the counts alone; and unless the check
/// accepts the listing.
pub fn compare(input: &Input) -> Searched {
    let Err(SearchRefusal::ListingBufferShort { needed }) = proved(input, &mut Lent::of(input, 0))
    else {
        panic!("a search with no room for its listing is refused by 11");
    };
    let [(answer, full), (refused, short)] = [needed, needed - 1].map(|length| {
        let mut by_proof = Lent::of(input, length);
        let mut by_plain = by_proof.clone();
        let answer = proved(input, &mut by_proof);
        assert_eq!(answer, plain::search(input, by_plain.lend()));
        assert!(by_proof == by_plain, "the buffers differ");
        compare_halves(input, answer, &by_proof);
        (answer, by_proof)
    });
    assert_eq!(refused, Err(SearchRefusal::ListingBufferShort { needed }));
    let mut counts = vec![0xA5A5; input.windows()];
    proved_counts(input, &mut counts);
    assert!(counts == full.counts, "the counts differ");
    let totals = answer.expect("there is room for everything");
    let Checked { found, refused } = checked(input, &full.listing);
    assert_eq!((found, refused), (totals.found, totals.refused));
    Searched {
        totals,
        full,
        short,
    }
}

/// What the plain comparison goes through in the windows, which is counted and not timed.
pub struct Walk {
    /// How many cells of a window it looks at, on average, as a share of the pattern's.
    pub share: f64,
    /// The strips, by their first columns, that the proved search makes links of: those in which a window matches that
    /// has n more below it, and so does the one n rows above it (`links_serve` of crates/flags).
    linked: Vec<usize>,
}

/// Walks through the windows as the plain program does.
pub fn walk(input: &Input, searched: &Searched) -> Walk {
    let mismatches = plain::mismatches(input, &plain::first_cells(input));
    let cells = input.pattern.len();
    let last = |mismatch: &Option<plain::Mismatch>| mismatch.map(|m| m.later);
    let looked_at = mismatches.iter().map(|mismatch| match last(mismatch) {
        None => cells,
        Some((i, j)) => usize::from(i) * input.width + usize::from(j) + 1,
    });
    let across = input.across();
    let n = match input.height {
        1 => input.rows,
        height => (2 * input.rows / height).min(input.rows * input.width / 16),
    };
    let links_serve = |left: usize| {
        let found = |top: usize| searched.full.flags[top * across + left] == 1;
        (2 * n + input.height..=input.rows).any(|end| {
            let top = end - n - input.height;
            found(top) && found(top - n)
        })
    };
    Walk {
        share: looked_at.sum::<usize>() as f64 / (mismatches.len() * cells) as f64,
        linked: (0..across).filter(|left| links_serve(*left)).collect(),
    }
}

/// The best times of a class.
pub struct Times {
    pub plain: Duration,
    pub plain_counts: Duration,
    /// The proved search.
    pub search: Duration,
    pub counts: Duration,
    pub links: Duration,
    /// A proved search that has no room for the last byte of its listing, and so writes none.
    pub unlisted: Duration,
    /// The proved count, which fills all but the listing.
    pub count: Duration,
    /// The proved list on the flags that the proved search left.
    pub list: Duration,
    /// The proved check of the listing that the proved search wrote.
    pub check: Duration,
    pub rounds: u32,
}

/// How long this takes, where it is less than the best so far.
pub fn time<T>(best: &mut Duration, run: impl FnOnce() -> T) {
    let start = Instant::now();
    let answer = run();
    *best = start.elapsed().min(*best);
    std::hint::black_box(answer);
}

/// Links alone, of the strips of which the search makes them.
fn make_links(input: &Input, walk: &Walk, links: &mut [u16]) {
    let &Input {
        ref text,
        rows,
        columns,
        width,
        ..
    } = input;
    for &left in &walk.linked {
        strip_links(text, rows, columns, width, left, links).expect("the links of a strip");
    }
}

/// Measures all that is compared in turn, round after round.
pub fn measure(input: &Input, searched: Searched, walk: &Walk) -> Times {
    let Searched { full, short, .. } = searched;
    let [mut by_plain, mut by_proof, mut alone, mut by_count, mut by_list] =
        [(); 5].map(|()| full.clone());
    let mut unlisted = short;
    let mut times = Times {
        plain: Duration::MAX,
        plain_counts: Duration::MAX,
        search: Duration::MAX,
        counts: Duration::MAX,
        links: Duration::MAX,
        unlisted: Duration::MAX,
        count: Duration::MAX,
        list: Duration::MAX,
        check: Duration::MAX,
        rounds: 0,
    };
    let start = Instant::now();
    while times.rounds < ROUNDS || start.elapsed() < LEAST {
        time(&mut times.plain, || plain::search(input, by_plain.lend()));
        time(&mut times.search, || proved(input, &mut by_proof));
        time(&mut times.plain_counts, || {
            plain::counts(input, &mut alone.counts)
        });
        time(&mut times.counts, || {
            proved_counts(input, &mut alone.counts)
        });
        time(&mut times.links, || {
            make_links(input, walk, &mut alone.links)
        });
        time(&mut times.unlisted, || proved(input, &mut unlisted));
        time(&mut times.count, || counted(input, &mut by_count));
        time(&mut times.list, || listed(input, &mut by_list));
        time(&mut times.check, || checked(input, &full.listing));
        times.rounds += 1;
    }
    times
}
