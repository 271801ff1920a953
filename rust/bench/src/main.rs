//! The proved search and its counts beside those of a plain Rust program, and the proved count, list and check and the
//! searches at scales beside the search, in one run and on the same inputs. No time is asserted: what misses a bar is
//! marked.
//!
//! `cargo run --release --offline -p bench`, after `rt lib` in crates/exports. With an argument
//! only the classes are measured in whose names it stands: `cargo run --release --offline -p bench -- stripes`.

/// Calls a proved operation on a text and a pattern: these two with their sides, and then what else it takes.
macro_rules! call {
    ($operation:ident, $input:expr, $($rest:expr),*) => {
        colourway::$operation(
            &$input.text,
            $input.rows,
            $input.columns,
            &$input.pattern,
            $input.height,
            $input.width,
            $($rest),*
        )
    };
}

mod aimed;
mod bars;
mod classes;
mod heights;
mod hostile;
mod input;
mod measure;
mod plain;
mod scale_classes;
mod scale_tables;
mod scales;
mod tables;
mod texts;

use input::Class;
use measure::{compare, measure, walk};
use tables::{explain, head_search, print_check, print_counts, print_halves, print_search, Line};

/// Compares the programs on a class, measures them, and judges the times.
fn line(class: Class) -> Line {
    let searched = compare(&class.input);
    let totals = searched.totals;
    let walk = walk(&class.input, &searched);
    let times = measure(&class.input, searched, &walk);
    Line {
        totals,
        walked: walk.share,
        search: bars::search(&class, walk.share, &times),
        counts: bars::counts(&times),
        count: bars::count(&times),
        list: bars::list(&times),
        check: bars::check(&times),
        name: class.name,
        times,
    }
}

/// The bars that a class misses, each with how many times the bar its ratio is.
fn misses(line: &Line) -> Vec<(f64, String)> {
    let judged = [
        ("search / plain", line.search),
        ("counts / plain counts", line.counts),
        ("count / search", line.count),
        ("list / search", line.list),
        ("check / search", line.check),
    ];
    let missed = |(what, judged): (&str, bars::Judged)| {
        let times = judged.miss()?;
        let (name, ratio, bar) = (&line.name, judged.ratio, judged.bar?);
        Some((
            times,
            format!("{name}: {what} {ratio:.2}, the bar is {bar:.2}"),
        ))
    };
    judged.into_iter().filter_map(missed).collect()
}

/// Measures all classes whose names have this part. The lines of those that were measured.
fn search_table(part: &str) -> Vec<Line> {
    explain();
    head_search();
    let mut lines = Vec::new();
    let all = [classes::classes(), hostile::classes(), aimed::classes()];
    for class in all.into_iter().flatten() {
        if class.name.contains(part) {
            let line = line(class);
            print_search(&line);
            lines.push(line);
        }
    }
    lines
}

fn main() {
    let part = std::env::args().nth(1).unwrap_or_default();
    let lines = search_table(&part);
    print_counts(&lines);
    print_halves(&lines);
    print_check(&lines);
    let growths = if heights::NAME.contains(&part) {
        heights::print()
    } else {
        Vec::new()
    };
    let scaled = scale_tables::print(&part);
    let missing = lines.iter().filter(|line| !misses(line).is_empty()).count();
    let mut worst: Vec<_> = lines.iter().flat_map(misses).collect();
    worst.extend(scaled.misses);
    worst.sort_by(|(a, _), (b, _)| b.total_cmp(a));
    println!(
        "\n{missing} of {} classes miss a bar, {} of {} at scales, and the time for a cell grows in {} places. The \
         worst first:",
        lines.len(),
        scaled.missing,
        scaled.measured,
        growths.len()
    );
    for miss in worst.into_iter().map(|(_, miss)| miss).chain(growths) {
        println!("  {miss}");
    }
}
