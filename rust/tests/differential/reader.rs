//! The reader of listings.

use crate::random::Random;
use crate::texts::{sides, TextAndPattern};
use crate::{assert_met, by_part, number, Operation, CASES};
use colourway::{read, read_into, records, ReadRefusal};

#[derive(Debug)]
struct Input {
    /// How the listing was made.
    made: &'static str,
    listing: Vec<u8>,
    at: usize,
    /// What the fields and the next place hold before the operation.
    fields: [u16; 7],
    next: usize,
}

/// A listing that a search wrote.
fn written(random: &mut Random) -> Vec<u8> {
    let sides = sides(random);
    TextAndPattern::make(random, sides).listing()
}

/// Records of any kind with any numbers, one after the other.
pub fn any_records(random: &mut Random) -> Vec<u8> {
    let mut listing = Vec::new();
    for _ in 0..random.between(0, 8) {
        let (kind, body) = random.choose(&[(1, 2), (2, 2), (3, 6), (4, 6), (5, 4)]);
        listing.push(kind);
        listing.extend(random.bytes(body));
    }
    listing
}

/// A few bytes, often small ones.
pub fn any_bytes(random: &mut Random) -> Vec<u8> {
    let length = random.between(0, 20);
    let most = random.choose(&[5, 6, 255]);
    (0..length).map(|_| random.between(0, most) as u8).collect()
}

/// A listing that a search wrote, the same damaged or cut, whole records of any numbers, or bytes.
fn listing(random: &mut Random) -> (&'static str, Vec<u8>) {
    match random.below(5) {
        0 => ("written", written(random)),
        1 => {
            let mut listing = written(random);
            for _ in 0..random.between(1, 9) {
                let place = random.below(listing.len());
                let (any, near) = (random.byte(), random.below(7) as u8);
                listing[place] = random.choose(&[any, near]);
            }
            ("damaged", listing)
        }
        2 => {
            let mut listing = written(random);
            listing.truncate(random.below(listing.len()));
            ("cut", listing)
        }
        3 => ("records", any_records(random)),
        _ => ("bytes", any_bytes(random)),
    }
}

/// The place of a record, as far as the listing has whole ones: the last place is at the end or at what is no whole
/// record.
fn record_place(random: &mut Random, listing: &[u8]) -> usize {
    let mut places = vec![0];
    let mut at = 0;
    while let (0, _, next) = brute::read(listing, at) {
        places.push(next);
        at = next;
    }
    let some = random.choose(&places);
    random.choose(&[some, at])
}

/// A listing and a cursor: at a record, anywhere, at the end and past it.
fn input(random: &mut Random) -> Input {
    let (made, listing) = listing(random);
    let end = listing.len();
    let at = match random.below(8) {
        0 => end,
        1 => random.choose(&[end + 1, end + 7, usize::MAX - 1, usize::MAX]),
        2..=3 => random.between(0, end),
        _ => record_place(random, &listing),
    };
    Input {
        made,
        listing,
        at,
        fields: [(); 7].map(|()| random.next() as u16),
        next: random.next() as usize,
    }
}

/// The number, the fields and the next place; and the same as the typed wrapper answers it, a record by its bytes.
type Answer = ((u8, [u16; 7], usize), Result<(Vec<u8>, usize), (u8, usize)>);

/// A refusal by its number, with the place.
fn refused(refusal: ReadRefusal) -> (u8, usize) {
    (refusal.why.number(), refusal.at)
}

fn proved(case: &Input) -> Answer {
    let mut fields = case.fields;
    let mut next = case.next;
    let outcome = read_into(&case.listing, case.at, &mut fields, &mut next);
    let typed = read(&case.listing, case.at)
        .map(|(record, next)| (record.bytes(), next))
        .map_err(refused);
    ((number(outcome), fields, next), typed)
}

fn brute(case: &Input) -> Answer {
    let (number, record, next) = brute::read(&case.listing, case.at);
    if number != 0 {
        // A refusal leaves the fields, and returns the cursor's place.
        return ((number, case.fields, next), Err((number, next)));
    }
    let mut fields = [0; 7];
    fields[..record.len()].copy_from_slice(&record);
    let bytes = case.listing[case.at..next].to_vec();
    ((0, fields, next), Ok((bytes, next)))
}

/// The number, and the kind of a record; of a refusal by 6 whether the kind is known, of one by 15 whether the cursor
/// is at the end.
fn result(input: &Input, answer: &Answer) -> (u8, &'static str) {
    let ((number, fields, _), _) = answer;
    let detail = match number {
        0 => ["", "found", "pair", "3", "4", "closing"][usize::from(fields[0])],
        6 if (1..=5).contains(&input.listing[input.at]) => "cut",
        6 => "unknown kind",
        _ if input.at == input.listing.len() => "at the end",
        _ => "past the end",
    };
    (*number, detail)
}

#[test]
fn reading_agrees() {
    let operation = Operation {
        name: "read",
        input,
        proved,
        brute,
    };
    let met = operation.compare_on(CASES, |input, answer| (input.made, result(input, answer)));
    assert_met(
        &by_part(&met, |&(_, result)| Some(result)),
        &[
            (0, "3"),
            (0, "4"),
            (0, "closing"),
            (0, "found"),
            (0, "pair"),
            (6, "cut"),
            (6, "unknown kind"),
            (15, "at the end"),
            (15, "past the end"),
        ],
    );
    assert_met(
        &by_part(&met, |&(made, _)| Some(made)),
        &["bytes", "cut", "damaged", "records", "written"],
    );
}

/// The records of a listing by their bytes, and at last the refusal if there is one.
pub type Records = Vec<Result<Vec<u8>, (u8, usize)>>;

fn proved_records(listing: &[u8]) -> Records {
    // One more than there can be, so that a listing that never ends is seen and does not hang.
    records(listing)
        .take(listing.len() + 1)
        .map(|item| item.map(|record| record.bytes()).map_err(refused))
        .collect()
}

pub fn brute_records(listing: &[u8]) -> Records {
    let mut found = Vec::new();
    let mut at = 0;
    loop {
        match brute::read(listing, at) {
            (0, _, next) => {
                found.push(Ok(listing[at..next].to_vec()));
                at = next;
            }
            (15, _, _) => return found,
            (number, _, place) => {
                found.push(Err((number, place)));
                return found;
            }
        }
    }
}

#[test]
fn records_agree() {
    let operation = Operation {
        name: "records",
        input: |random| listing(random).1,
        proved: |listing| proved_records(listing),
        brute: |listing| brute_records(listing),
    };
    // Whether there is a record, and whether all of the listing is records.
    let met = operation.compare(|records| {
        let whole = records.iter().all(Result::is_ok);
        (records.iter().any(Result::is_ok), whole)
    });
    assert_met(
        &met,
        &[(false, false), (false, true), (true, false), (true, true)],
    );
}
