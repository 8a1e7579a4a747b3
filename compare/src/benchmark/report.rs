//! The figures as text, and which goals are met.

use std::fmt::Write;

use super::case::{Case, SLOTS};
use super::figures::{median, Spread, Times};

/// The product is to be no slower than the second implementation.
const RATIO_GOAL: f64 = 1.0;

/// An add into a board with one slot left, in nanoseconds.
const ADD_GOAL: f64 = 1_000_000.0;

/// The lines of one case.
pub fn of_case(case: &Case) -> String {
    let mut text = format!(
        "\n{} board of {SLOTS} slots, {} in use, {} rules\n",
        case.kind,
        case.filling,
        case.pattern.name()
    );
    text += "  call          product ns     second ns   ratio     sorted ns\n";
    let calls = [
        ("look-up", &case.look_up),
        ("add", &case.add),
        ("complete", &case.complete),
        ("drop", &case.drop),
    ];
    for (call, times) in calls {
        text += &of_call(call, times);
    }
    text += "  writes per add      mean      99 %   largest\n";
    text += &of_writes("board", &case.writes.board());
    text += &of_writes("sorted", &case.writes.sorted());
    let (adds, above) = (case.writes.adds(), case.writes.above());
    text + &format!("  of {adds} adds, {above} with more writes than in the sorted table\n")
}

fn of_call(call: &str, times: &Times) -> String {
    let (product, second, ratio) = (times.product(), times.second(), times.ratio());
    let sorted = times
        .sorted()
        .map_or("-".to_string(), |time| format!("{time:.0}"));
    format!("  {call:<10} {product:>13.0} {second:>13.0} {ratio:>7.2} {sorted:>13}\n")
}

fn of_writes(table: &str, spread: &Spread) -> String {
    let Spread {
        mean,
        percentile_99,
        largest,
    } = spread;
    format!("    {table:<10} {mean:>9.1} {percentile_99:>9} {largest:>9}\n")
}

/// One line for each goal and kind, with the worst case.
pub fn of_goals(cases: &[Case]) -> String {
    let mut text = "\nGoals\n".to_string();
    for kind in ["packet", "dial"] {
        let of_kind: Vec<&Case> = cases.iter().filter(|case| case.kind == kind).collect();
        let nearly_full = of_kind
            .iter()
            .copied()
            .filter(|case| case.filling + 1 == SLOTS);
        let lines = [
            ratio_goal("look-up", &of_kind, |case| &case.look_up),
            ratio_goal("add", &of_kind, |case| &case.add),
            add_goal(nearly_full),
            writes_goal(&of_kind),
        ];
        for line in lines {
            writeln!(text, "  {kind}: {line}").expect("a string takes all");
        }
    }
    text
}

fn verdict(met: bool) -> &'static str {
    if met {
        "met"
    } else {
        "NOT met"
    }
}

fn ratio_goal(call: &str, cases: &[&Case], times: fn(&Case) -> &Times) -> String {
    let ratio = |case: &Case| times(case).ratio();
    let worst = cases
        .iter()
        .max_by(|one, other| ratio(one).total_cmp(&ratio(other)))
        .expect("every kind is measured");
    let above = cases.iter().filter(|case| ratio(case) > RATIO_GOAL).count();
    format!(
        "{call} at most {RATIO_GOAL:.1} of the second implementation: {}, largest ratio {:.2} ({}), above \
         in {above} of {} cases",
        verdict(above == 0),
        ratio(worst),
        worst.name(),
        cases.len()
    )
}

fn add_goal<'case>(cases: impl Iterator<Item = &'case Case>) -> String {
    let time = |case: &Case| median(&case.whole_adds);
    let worst = cases
        .max_by(|one, other| time(one).total_cmp(&time(other)))
        .expect("every kind is measured with one slot left");
    // A call of milliseconds is often interrupted on a busy machine; the fastest turn was not.
    let fastest = worst
        .whole_adds
        .iter()
        .copied()
        .fold(f64::INFINITY, f64::min);
    format!(
        "add and complete with one slot left below {:.0} us: {}, longest {:.1} us ({}), there {:.1} us in \
         the fastest turn",
        ADD_GOAL / 1_000.0,
        verdict(time(worst) < ADD_GOAL),
        time(worst) / 1_000.0,
        worst.name(),
        fastest / 1_000.0
    )
}

fn writes_goal(cases: &[&Case]) -> String {
    let above: usize = cases.iter().map(|case| case.writes.above()).sum();
    let adds: usize = cases.iter().map(|case| case.writes.adds()).sum();
    format!(
        "writes of an add never above the sorted table's: {}, above in {above} of {adds} adds",
        verdict(above == 0)
    )
}
