//! The bars: what each of the proved operations may take at most. Nothing holds them; what misses one is marked.

use crate::input::{Class, Kind};
use crate::measure::Times;
use std::time::Duration;

/// What the search may take of the plain program's time: on random texts, and on all where that takes long enough to
/// be compared.
pub const RANDOM: f64 = 1.3;
pub const EVERY: f64 = 1.5;
pub const LEAST_PLAIN: Duration = Duration::from_micros(50);

/// What it may take where the plain program walks through the windows of a regular text: from this side of the pattern
/// on, where this share of the pattern's cells is compared in a window, on average.
pub const WALKED: f64 = 0.25;
pub const WALKED_SIDE: usize = 64;
pub const WALKED_SHARE: f64 = 0.25;

/// What the counts may take of the plain program's counts, alone.
pub const COUNTS: f64 = 1.1;

/// What the halves of the search may take of the time of the search: the count, which lists nothing, and the list,
/// which judges every flag that it is lent.
pub const COUNT: f64 = 0.9;
pub const LIST: f64 = 1.2;

/// What the check of a listing may take of the time of the search that wrote it.
pub const CHECK: f64 = 1.2;

/// What the search at a scale may take of the time of the search with the stored enlargement as its pattern, and the
/// search at every scale of the time of all those searches.
pub const SCALED: f64 = 2.0;

/// By how much the time for a cell may be above that with a lower pattern: the noise of the measurement.
pub const GROWTH: f64 = 1.1;

/// A ratio beside the bar that holds of it, if one does.
#[derive(Clone, Copy)]
pub struct Judged {
    pub ratio: f64,
    pub bar: Option<f64>,
}

impl Judged {
    fn of(measured: Duration, against: Duration, bar: Option<f64>) -> Judged {
        let ratio = measured.as_secs_f64() / against.as_secs_f64();
        Judged { ratio, bar }
    }

    /// How many times the bar the ratio is, where it misses it.
    pub fn miss(self) -> Option<f64> {
        self.bar
            .map(|bar| self.ratio / bar)
            .filter(|&times| times > 1.0)
    }

    /// What is said of it.
    pub fn said(self) -> String {
        match (self.bar, self.miss()) {
            (None, _) => String::from("no bar"),
            (Some(bar), None) => format!("within {bar:.2}"),
            (Some(bar), Some(_)) => format!("MISSES {bar:.2}"),
        }
    }
}

/// The bar of the search, by the text's kind, by what the plain program walks through, and by how long that takes.
fn search_bar(class: &Class, walked: f64, plain: Duration) -> Option<f64> {
    let least_side = class.input.height.min(class.input.width);
    match class.kind {
        Kind::Random => Some(RANDOM),
        Kind::Regular if least_side >= WALKED_SIDE && walked >= WALKED_SHARE => Some(WALKED),
        _ => (plain >= LEAST_PLAIN).then_some(EVERY),
    }
}

/// The search beside the plain program.
pub fn search(class: &Class, walked: f64, times: &Times) -> Judged {
    let bar = search_bar(class, walked, times.plain);
    Judged::of(times.search, times.plain, bar)
}

/// The counts beside those of the plain program.
pub fn counts(times: &Times) -> Judged {
    Judged::of(times.counts, times.plain_counts, Some(COUNTS))
}

/// The count, the search's first half, beside the search.
pub fn count(times: &Times) -> Judged {
    Judged::of(times.count, times.search, Some(COUNT))
}

/// The list, its second half, beside the search.
pub fn list(times: &Times) -> Judged {
    Judged::of(times.list, times.search, Some(LIST))
}

/// A search at a scale, or at every scale, beside the search or the searches for stored enlargements.
pub fn scaled(scaled: Duration, stored: Duration) -> Judged {
    Judged::of(scaled, stored, Some(SCALED))
}

/// The check beside the search.
pub fn check(times: &Times) -> Judged {
    Judged::of(times.check, times.search, Some(CHECK))
}
