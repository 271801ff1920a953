//! What is printed: what is measured and how, and a line a class in each table.

use crate::bars::{self, Judged};
use crate::measure::{Times, LEAST, ROUNDS};
use colourway::Totals;
use std::time::Duration;

/// How wide the column of names is.
pub const NAME: usize = 76;

/// A class that was measured, with what its lines say.
pub struct Line {
    pub name: String,
    pub totals: Totals,
    /// Which share of the pattern's cells the plain program looks at in a window, on average.
    pub walked: f64,
    pub times: Times,
    pub search: Judged,
    pub counts: Judged,
    pub count: Judged,
    pub list: Judged,
    pub check: Judged,
}

/// A time in milliseconds.
pub fn milliseconds(time: Duration) -> f64 {
    time.as_secs_f64() * 1e3
}

/// Says what is measured, and how.
pub fn explain() {
    let [least, side, share] = [
        format!("{:?}", bars::LEAST_PLAIN),
        format!("{0} by {0}", bars::WALKED_SIDE),
        format!("{:.2}", bars::WALKED_SHARE),
    ];
    let [random, every, walked] = [bars::RANDOM, bars::EVERY, bars::WALKED];
    println!(
        "\
The proved search and a plain Rust program on the same inputs, in turn, in one run: texts of 255 by 255 cells.
Times are in milliseconds, the best of at least {ROUNDS} rounds and {LEAST:?} a class. Before that both ran on buffers
of noise, and gave the same answer and the same buffers, also where the listing's buffer is one byte too short; and so
did the proved count followed by the proved list. Between rounds buffers are not cleared: neither program needs it.

walked is the share of the pattern's cells that the plain program looks at in a window, on average.
The proved search's phases:
  counts   the distinct counts, by that operation alone
  links    the links, by that operation alone, of the strips of which the search makes them
  flags    a search refused by 11 for want of one byte, less counts and links
  writing  the whole search, less the refused one
The last two are differences of times measured apart, so a small one may come out below 0.

Bars for search / plain:
  at most {random:.2} on random texts
  at most {walked:.2} on constant, periodic and striped texts with patterns from {side} on, where walked is {share} or
           more
  at most {every:.2} on all others, where the plain program takes {least} or more
"
    );
}

/// Heads the lines of the search.
pub fn head_search() {
    println!(
        "{:<NAME$} {:>6} {:>7} {:>6} {:>9} {:>9} {:>6}  {:<11} {:>9} {:>9} {:>9} {:>9} {:>6}",
        "class and pattern",
        "found",
        "refused",
        "walked",
        "plain",
        "search",
        "ratio",
        "bar",
        "counts",
        "links",
        "flags",
        "writing",
        "rounds"
    );
}

/// A class's line of the search.
pub fn print_search(line: &Line) {
    let times = &line.times;
    let [plain, search, counts, links, unlisted] = [
        times.plain,
        times.search,
        times.counts,
        times.links,
        times.unlisted,
    ]
    .map(milliseconds);
    let [flags, writing] = [unlisted - counts - links, search - unlisted];
    println!(
        "{:<NAME$} {:>6} {:>7} {:>6.3} {plain:>9.3} {search:>9.3} {:>6.2}  {:<11} {counts:>9.3} {links:>9.3} \
         {flags:>9.3} {writing:>9.3} {:>6}",
        line.name,
        line.totals.found,
        line.totals.refused,
        line.walked,
        line.search.ratio,
        line.search.said(),
        times.rounds,
    );
}

/// The counts of all classes.
pub fn print_counts(lines: &[Line]) {
    println!(
        "\nThe proved counts beside the plain program's counts, each alone, in the same rounds."
    );
    println!(
        "Bar for counts / plain counts: at most {:.2}\n",
        bars::COUNTS
    );
    println!(
        "{:<NAME$} {:>9} {:>9} {:>6}  bar",
        "class and pattern", "plain", "counts", "ratio"
    );
    for line in lines {
        let [plain, counts] = [line.times.plain_counts, line.times.counts].map(milliseconds);
        let (ratio, said) = (line.counts.ratio, line.counts.said());
        println!(
            "{:<NAME$} {plain:>9.3} {counts:>9.3} {ratio:>6.2}  {said}",
            line.name
        );
    }
}

/// The halves of the search, of all classes.
pub fn print_halves(lines: &[Line]) {
    println!(
        "\nThe proved count, and the proved list on the search's flags, each beside the search, in the same rounds."
    );
    println!(
        "Bars: at most {:.2} for count / search, at most {:.2} for list / search\n",
        bars::COUNT,
        bars::LIST
    );
    println!(
        "{:<NAME$} {:>9} {:>9} {:>6}  {:<11} {:>9} {:>6}  bar",
        "class and pattern", "search", "count", "ratio", "bar", "list", "ratio"
    );
    for line in lines {
        let times = &line.times;
        let [search, count, list] = [times.search, times.count, times.list].map(milliseconds);
        println!(
            "{:<NAME$} {search:>9.3} {count:>9.3} {:>6.2}  {:<11} {list:>9.3} {:>6.2}  {}",
            line.name,
            line.count.ratio,
            line.count.said(),
            line.list.ratio,
            line.list.said(),
        );
    }
}

/// The check of all classes.
pub fn print_check(lines: &[Line]) {
    println!("\nThe proved check of the listing that the search wrote, of so many bytes, beside the search.");
    println!("Bar for check / search: at most {:.2}\n", bars::CHECK);
    println!(
        "{:<NAME$} {:>9} {:>9} {:>9} {:>6}  bar",
        "class and pattern", "listing", "search", "check", "ratio"
    );
    for line in lines {
        let [search, check] = [line.times.search, line.times.check].map(milliseconds);
        let (ratio, said) = (line.check.ratio, line.check.said());
        println!(
            "{:<NAME$} {:>9} {search:>9.3} {check:>9.3} {ratio:>6.2}  {said}",
            line.name, line.totals.length
        );
    }
}
