//! What is printed of the searches at scales.

use crate::bars::{self, Judged};
use crate::scale_classes::{at_every_scale, scaled};
use crate::scales::{measure, measure_every, Times, EVERY_ROUNDS, LEAST, ROUNDS};
use crate::tables::{milliseconds, NAME};

/// What was measured, and what of it misses the bar, each with how many times the bar its ratio is.
#[derive(Default)]
pub struct Measured {
    pub measured: usize,
    pub missing: usize,
    pub misses: Vec<(f64, String)>,
}

impl Measured {
    fn add(&mut self, name: &str, what: &str, judged: Judged) {
        self.measured += 1;
        if let Some(times) = judged.miss() {
            let said = format!(
                "{name}: {what} {:.2}, the bar is {:.2}",
                judged.ratio,
                bars::SCALED
            );
            self.missing += 1;
            self.misses.push((times, said));
        }
    }
}

/// Prints both tables, of the classes whose names have this part.
pub fn print(part: &str) -> Measured {
    let mut measured = Measured::default();
    print_scaled(part, &mut measured);
    print_every(part, &mut measured);
    measured
}

fn head(operation: &str) {
    println!(
        "{:<NAME$} {:>7} {:>7} {:>9} {operation:>9} {:>6}  bar",
        "class and pattern", "found", "refused", "stored", "ratio"
    );
}

fn line(name: &str, times: &Times) -> Judged {
    let judged = bars::scaled(times.scaled, times.stored);
    let [stored, scaled] = [times.stored, times.scaled].map(milliseconds);
    println!(
        "{name:<NAME$} {:>7} {:>7} {stored:>9.3} {scaled:>9.3} {:>6.2}  {}",
        times.totals.found,
        times.totals.refused,
        judged.ratio,
        judged.said(),
    );
    judged
}

fn print_scaled(part: &str, measured: &mut Measured) {
    println!(
        "\nThe proved search at a scale beside the proved search with the stored enlargement as its pattern, in turn."
    );
    println!(
        "Before that both left the same buffers. The best of at least {ROUNDS} rounds and {LEAST:?}. A coarse text has"
    );
    println!("its own cells drawn as squares of that scale.");
    println!("Bar for scaled / stored: at most {:.2}\n", bars::SCALED);
    head("scaled");
    for class in scaled().filter(|class| class.name.contains(part)) {
        let judged = line(&class.name, &measure(&class));
        measured.add(&class.name, "scaled / stored", judged);
    }
}

fn print_every(part: &str, measured: &mut Measured) {
    println!(
        "\nThe proved search at every scale that fits beside the proved searches for all stored enlargements, one after"
    );
    println!("the other, the best of {EVERY_ROUNDS} rounds; totals are the sums.");
    println!("Bar for every / stored: at most {:.2}\n", bars::SCALED);
    head("every");
    for class in at_every_scale() {
        let name = format!("{}, every scale", class.name);
        if name.contains(part) {
            let judged = line(&name, &measure_every(&class.input));
            measured.add(&name, "every / stored", judged);
        }
    }
}
