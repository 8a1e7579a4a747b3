//! A player that makes up orders one after another, aimed at the phase that the board is in.

use crate::board::Phase;
use crate::device::SlotDevice;
use crate::draft::Draft;
use crate::order::{Order, LETTERS};
use crate::random::Random;
use crate::rule::Rule;
use crate::style::Style;

/// Room that is enough for any one order.
pub const LONGEST_ORDER: usize = 27;

/// Plays orders of the style until no further one is sure to fit below the length.
pub fn play<Device: SlotDevice>(
    draft: &mut Draft<Device>,
    random: &mut Random,
    style: &Style,
    length: usize,
) {
    while draft.length() + LONGEST_ORDER <= length {
        let order = next_order(draft, random, style);
        draft.tell(order);
    }
}

pub fn next_order<Device: SlotDevice>(
    draft: &mut Draft<Device>,
    random: &mut Random,
    style: &Style,
) -> Order {
    let is_full = draft.board().slots().iter().all(Option::is_some);
    // The weights of the letters A, D, C, L, S, E, W.
    let weights = match draft.board().phase() {
        Phase::Idle if is_full => [10, 40, 8, 30, 4, 4, 4],
        Phase::Idle => [48, 8, 7, 28, 3, 3, 3],
        Phase::Shifting => [2, 4, 3, 30, 45, 9, 7],
        Phase::Written => [3, 5, 4, 30, 12, 30, 16],
    };
    let letters: Vec<(u8, u64)> = LETTERS.into_iter().zip(weights).collect();
    let letter = random.weighted(&letters);
    match letter {
        b'A' => Order::Add(rule_to_add(draft, random, style)),
        b'D' => Order::Drop {
            number: a_number(draft, random, style),
        },
        b'C' => Order::Change {
            number: a_number(draft, random, style),
            action: an_action(random),
        },
        b'L' => Order::LookUp {
            subject: style.subject(random),
        },
        b'S' => Order::Step,
        b'E' => Order::Complete,
        _ => Order::Withdraw,
    }
}

/// A number for drop or change: often one in force, else any.
fn a_number<Device: SlotDevice>(draft: &Draft<Device>, random: &mut Random, style: &Style) -> u16 {
    let known: Vec<u16> = draft
        .board()
        .rules_in_force()
        .iter()
        .map(|rule| rule.number)
        .collect();
    if !known.is_empty() && random.percent(70) {
        random.pick(&known)
    } else {
        random.below(style.most_number + 1) as u16
    }
}

/// Small actions can be read; large ones show that all 32 bits are kept.
fn an_action(random: &mut Random) -> u32 {
    if random.percent(50) {
        random.below(1_000) as u32
    } else {
        random.word() as u32
    }
}

fn rule_to_add<Device: SlotDevice>(
    draft: &mut Draft<Device>,
    random: &mut Random,
    style: &Style,
) -> Rule {
    let candidates: Vec<Rule> = (0..12).map(|_| a_rule(draft, random, style)).collect();
    if random.percent(style.reaching_far) {
        let longest = candidates
            .iter()
            .copied()
            .max_by_key(|&rule| draft.chain_length(rule));
        return longest.expect("there are twelve candidates");
    }
    candidates[0]
}

/// A rule with, in most cases, a number that is not in force.
fn a_rule<Device: SlotDevice>(draft: &Draft<Device>, random: &mut Random, style: &Style) -> Rule {
    let any = random.below(style.most_number + 1) as u16;
    let in_force = draft.board().rules_in_force();
    let is_free = |number: &u16| in_force.iter().all(|rule| rule.number != *number);
    let free: Vec<u16> = (1..=style.most_number as u16).filter(is_free).collect();
    let number = if free.is_empty() || random.percent(8) {
        any
    } else {
        random.pick(&free)
    };
    Rule {
        number,
        priority: random.below(style.priorities) as u16,
        action: an_action(random),
        words: style.words(random),
    }
}
