//! What the search at every scale leaves of each scale: entries in layers, and a listing that passes the check.

use super::at_every_scale;
use crate::coarse::scales_input;
use crate::lent::searched;
use crate::random::Random;
use crate::texts::TextAndPattern;
use crate::CASES;
use brute::Buffers;
use colourway::{check, Checked, Record};

/// Entry `p` of flags and counts is that of window `p` at the largest scale that has more than `p` windows; links are 0
/// as far as the largest scale needs them.
#[test]
fn entries_are_those_of_the_largest_scale_that_has_them() {
    for case in 0..CASES / 4 {
        let input = scales_input(&mut Random::of_case("layers", case));
        let (number, _, after) = at_every_scale(&input);
        if ![0, 11].contains(&number) {
            continue;
        }
        let given = &input.given;
        let layers: Vec<Buffers> = given.at_every_scale().map(left_by).collect();
        for p in 0..given.windows() {
            let layer = layers.iter().rev().find(|layer| layer.flags.len() > p);
            let layer = layer.expect("scale 1 has all windows");
            let entry = (layer.flags[p], layer.counts[p]);
            assert_eq!((after.flags[p], after.counts[p]), entry, "{p}: {input:?}");
        }
        let links = given.rows * given.largest_scale() * given.width;
        assert!(after.links[..links].iter().all(|&link| link == 0));
        assert_eq!(after.links[links..], input.lent.links[links..]);
        let windows = given.windows();
        assert_eq!(after.flags[windows..], input.lent.flags[windows..]);
        assert_eq!(after.counts[windows..], input.lent.counts[windows..]);
    }
}

/// What the search leaves in buffers that are just as long as it needs them, but for the listing.
fn left_by(enlarged: TextAndPattern) -> Buffers {
    let [links, counts, flags, _] = enlarged.needed();
    let mut lent = Buffers {
        links: vec![9; links],
        counts: vec![9; counts],
        flags: vec![9; flags],
        listing: Vec::new(),
    };
    assert_eq!(searched(&enlarged, &mut lent, &mut [0; 3]), 11);
    lent
}

/// The listings of an accepted search, each up to its closing.
fn listings(mut all: &[u8]) -> Vec<&[u8]> {
    let mut parts = Vec::new();
    while !all.is_empty() {
        let closing = |record: &Record| matches!(record, Record::Closing { .. });
        let mut length = 0;
        for record in colourway::records(all) {
            let record = record.expect("a whole record");
            length += record.bytes().len();
            if closing(&record) {
                break;
            }
        }
        let (part, rest) = all.split_at(length);
        parts.push(part);
        all = rest;
    }
    parts
}

/// Each listing by itself passes the check with the stored enlargement as its pattern, and has its own closing.
#[test]
fn each_listing_of_every_scale_passes_the_check() {
    let mut passed = 0;
    for case in 0..CASES {
        let input = scales_input(&mut Random::of_case("check at every scale", case));
        let (number, [found, refused, length], after) = at_every_scale(&input);
        if number != 0 {
            continue;
        }
        let parts = listings(&after.listing[..length]);
        assert_eq!(parts.len(), input.given.largest_scale(), "{input:?}");
        let mut sums = (0, 0);
        for (enlarged, part) in input.given.at_every_scale().zip(parts) {
            let checked = call!(check, &enlarged, part);
            let Checked { found, refused } = checked.expect("a listing of the enlargement");
            assert_eq!(found + refused, enlarged.windows());
            sums = (sums.0 + found, sums.1 + refused);
            passed += 1;
        }
        assert_eq!(sums, (found, refused), "{input:?}");
    }
    assert!(passed > CASES, "{passed} listings");
}
