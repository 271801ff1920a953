//! Whether the search's time for a cell of a strip grows with the pattern's height, on constant texts.

use crate::bars;
use crate::classes::constant;
use crate::measure::{compare, proved, time, LEAST, ROUNDS};
use std::time::{Duration, Instant};

/// What the table is called: a part of it as argument asks for it.
pub const NAME: &str = "time for a cell by height";

const WIDTHS: [usize; 4] = [2, 16, 64, 128];
const HEIGHTS: [usize; 5] = [2, 16, 64, 128, 200];

/// The search's best time on a constant text, in nanoseconds, divided by its rows × its columns × the pattern's width.
fn quotient(height: usize, width: usize) -> f64 {
    let input = constant((height, width)).input;
    let mut lent = compare(&input).full;
    let mut best = Duration::MAX;
    let start = Instant::now();
    let mut rounds = 0;
    while rounds < ROUNDS || start.elapsed() < LEAST {
        time(&mut best, || proved(&input, &mut lent));
        rounds += 1;
    }
    best.as_secs_f64() * 1e9 / (input.rows * input.columns * width) as f64
}

/// Prints the table. The widths at which the quotient grows, with where it does.
pub fn print() -> Vec<String> {
    println!("\nThe search on constant texts: its time in nanoseconds divided by the text's rows × its columns × the");
    println!(
        "pattern's width. It must not grow with the height: what is more than {} of the least",
        bars::GROWTH
    );
    println!("above it in its column is marked.\n");
    print!("{:>6}", "height");
    for width in WIDTHS {
        print!(" {:>14}", format!("width {width}"));
    }
    println!();
    let mut least = [f64::INFINITY; WIDTHS.len()];
    let mut misses = Vec::new();
    for height in HEIGHTS {
        print!("{height:>6}");
        for (width, least) in WIDTHS.into_iter().zip(&mut least) {
            let q = quotient(height, width);
            let grows = q > bars::GROWTH * *least;
            print!(" {q:>8.3} {:<5}", if grows { "GROWS" } else { "" });
            if grows {
                misses.push(format!(
                    "{NAME}: {q:.3} ns at {height} by {width}, {least:.3} ns below that"
                ));
            }
            *least = least.min(q);
        }
        println!();
    }
    misses
}
