//! The proved operations and the brute force on the same random inputs: the answer and every cell of the buffer are
//! compared.

/// Calls an operation on a text and a pattern: these two with their sides, and then what else it takes.
macro_rules! call {
    ($operation:path, $given:expr, $($rest:expr),*) => {{
        let given = $given;
        $operation(
            &given.text,
            given.rows,
            given.columns,
            &given.pattern,
            given.height,
            given.width,
            $($rest),*
        )
    }};
}

mod bijections;
mod check;
mod coarse;
mod compare;
mod count_then_list;
mod counting;
mod counts;
mod damage;
mod lent;
mod links;
mod listing;
mod program;
mod random;
mod reader;
mod scaled;
mod scales;
mod search;
mod single_flags;
mod symbols;
mod texts;
mod windows;

use random::{Random, SEED};
use std::collections::BTreeMap;
use std::fmt::Debug;

/// How many inputs each operation is tried on.
const CASES: u64 = 20_000;

/// An operation with the two ways to its answer.
struct Operation<Input, Answer> {
    name: &'static str,
    /// The next input.
    input: fn(&mut Random) -> Input,
    proved: fn(&Input) -> Answer,
    brute: fn(&Input) -> Answer,
}

impl<Input: Debug, Answer: PartialEq + Debug> Operation<Input, Answer> {
    /// Compares the two on every case, and counts the cases by what `kind` makes of their answer.
    fn compare<Kind: Ord>(&self, kind: fn(&Answer) -> Kind) -> BTreeMap<Kind, u64> {
        self.compare_on(CASES, |_, answer| kind(answer))
    }

    /// Compares the two on that many cases, and counts them by what `kind` makes of their input and their answer.
    fn compare_on<Kind: Ord>(
        &self,
        cases: u64,
        kind: impl Fn(&Input, &Answer) -> Kind,
    ) -> BTreeMap<Kind, u64> {
        let mut kinds = BTreeMap::new();
        for case in 0..cases {
            let input = (self.input)(&mut Random::of_case(self.name, case));
            let proved = (self.proved)(&input);
            let brute = (self.brute)(&input);
            assert!(
                proved == brute,
                "{}: seed {SEED:#x}, case {case}\n  input: {input:?}\n  proved code: {proved:?}\n  \
                 brute force: {brute:?}",
                self.name
            );
            *kinds.entry(kind(&input, &brute)).or_insert(0) += 1;
        }
        kinds
    }
}

/// Fails unless each of these kinds of answer, and no other, came up often enough for the comparison to say something
/// of it: in a hundredth of all cases.
fn assert_met<Kind: Copy + PartialEq + Debug>(met: &BTreeMap<Kind, u64>, kinds: &[Kind]) {
    let seen: Vec<Kind> = met.keys().copied().collect();
    assert_eq!(seen, kinds, "the kinds of answer that the inputs had");
    let all: u64 = met.values().sum();
    for (kind, cases) in met {
        assert!(
            *cases >= all / 100,
            "only {cases} inputs had an answer of kind {kind:?}"
        );
    }
}

/// The cases counted by a part of their kind, those left out that have none.
fn by_part<Kind, Part: Ord>(
    met: &BTreeMap<Kind, u64>,
    part: impl Fn(&Kind) -> Option<Part>,
) -> BTreeMap<Part, u64> {
    let mut parts = BTreeMap::new();
    for (kind, cases) in met {
        if let Some(part) = part(kind) {
            *parts.entry(part).or_insert(0) += cases;
        }
    }
    parts
}

/// The number of an operation's outcome.
fn number(outcome: Result<(), colourway::Refusal>) -> u8 {
    outcome.map_or_else(|why| why.number(), |()| 0)
}
