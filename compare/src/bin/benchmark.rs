//! Measures the product beside the second implementation and a sorted table, and prints the figures.

use compare::benchmark::case::{measure_dial, measure_packet, Case, SLOTS};
use compare::benchmark::contender::{time_of_the_clock, Nanoseconds};
use compare::benchmark::report;
use compare::benchmark::workload::Pattern;

/// A quarter, a half, nine tenths, and all but one.
const FILLINGS: [usize; 4] = [SLOTS / 4, SLOTS / 2, SLOTS * 9 / 10, SLOTS - 1];

fn main() {
    let clock = time_of_the_clock();
    println!("The clock takes {clock:.0} ns, which is taken off. Times are medians, per call.");
    let mut cases = Vec::new();
    for measure in [measure_packet, measure_dial] as [fn(Pattern, usize, Nanoseconds) -> Case; 2] {
        for pattern in Pattern::ALL {
            for filling in FILLINGS {
                let case = measure(pattern, filling, clock);
                print!("{}", report::of_case(&case));
                cases.push(case);
            }
        }
    }
    print!("{}", report::of_goals(&cases));
}
