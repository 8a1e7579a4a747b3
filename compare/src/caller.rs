//! A caller that makes up calls one after another, aimed at what the board is about to refuse.

use second::random::Random;
use second::{Board, Phase, Rule, SlotDevice, Words};

use crate::interface::{Answer, Call, Record, Ticket};
use crate::matter::Matter;

#[derive(Clone, Copy, Debug, PartialEq, Eq)]
pub enum Manner {
    /// Fills and empties the board as it comes.
    Wandering,
    /// Keeps the board nearly full, and most adds go on top of all others.
    Rising,
    /// Every add goes on top of all others, and on a full board the lowest rule is dropped. Over rules
    /// that all meet this makes the longest chains that there are.
    Tower,
}

pub struct Caller<'matter> {
    matter: &'matter Matter,
    random: Random,
    /// Numbers go up to this one.
    most_number: u64,
    /// Priorities lie below this.
    priorities: u64,
    manner: Manner,
    /// How many rules the caller now wants in force; it changes its mind from time to time.
    aim: usize,
    /// Whether the open add is stepped to its end.
    patient: bool,
    ticket: Ticket,
    former: Ticket,
}

impl<'matter> Caller<'matter> {
    pub fn new(matter: &'matter Matter, manner: Manner, mut random: Random, slots: usize) -> Self {
        let (most_number, priorities) = match manner {
            Manner::Wandering => (
                random.pick(&[slots as u64 + 10, 3 * slots as u64 + 3, 65_535]),
                random.pick(&[50, 2_000, 65_536]),
            ),
            // Who rises needs room above.
            Manner::Rising | Manner::Tower => (65_535, 2_000),
        };
        Caller {
            matter,
            random,
            most_number,
            priorities,
            manner,
            aim: slots,
            patient: false,
            ticket: Ticket::default(),
            former: Ticket::default(),
        }
    }

    /// The next call. The board shows its phase and its rules; it is not changed.
    pub fn next_call<Device: SlotDevice>(&mut self, board: &Board<Device>) -> Call {
        let slots = board.slots();
        if self.random.below(2 * slots.len() as u64 + 40) == 0 {
            self.aim = match self.manner {
                Manner::Wandering => self.random.below(slots.len() as u64 + 2) as usize,
                Manner::Rising => slots.len().saturating_sub(self.random.below(2) as usize),
                Manner::Tower => slots.len(),
            };
        }
        let wants_more = board.rules_in_force().len() < self.aim;
        // The weights of A, D, C, L, S, E, W and of any other letter.
        let weights: [u64; 8] = match board.phase() {
            Phase::Idle if self.manner == Manner::Tower && wants_more => [85, 0, 2, 10, 1, 1, 0, 1],
            Phase::Idle if self.manner == Manner::Tower => [5, 80, 2, 10, 1, 1, 0, 1],
            Phase::Shifting if self.manner == Manner::Tower && !self.patient => {
                [2, 1, 1, 15, 30, 50, 0, 1]
            }
            Phase::Idle if wants_more => [70, 4, 4, 15, 2, 2, 2, 1],
            Phase::Idle => [15, 50, 8, 20, 2, 2, 2, 1],
            Phase::Shifting if self.patient => [1, 1, 1, 10, 86, 0, 0, 1],
            Phase::Shifting => [3, 2, 2, 15, 30, 40, 7, 1],
            Phase::Written => [5, 4, 4, 15, 15, 40, 16, 1],
        };
        let letters: Vec<(u8, u64)> = b"ADCLSEW?".iter().copied().zip(weights).collect();
        let letter = self.random.weighted(&letters);
        let mut call = self.noise();
        call.letter = letter;
        match letter {
            b'A' => call.rule = Record::from(self.rule_to_add(board.rules_in_force(), &slots)),
            b'D' => call.rule.number = self.number_to_drop(board.rules_in_force()),
            b'C' => call.rule.number = self.known_or_any(board.rules_in_force()),
            b'L' => call.subject = self.subject(),
            b'?' => call.letter = self.strange_letter(),
            _ => call.ticket = self.ticket_to_give(),
        }
        call
    }

    /// The caller keeps the ticket that an add gave it, and the one before.
    pub fn hear(&mut self, call: &Call, answer: &Answer) {
        if call.letter == b'A' && answer.refusal == 0 {
            self.former = self.ticket;
            self.ticket = answer.ticket;
            // To step along a long chain takes as many calls, so that is done more seldom.
            self.patient = self.random.percent(if answer.value < 20 { 15 } else { 2 });
        }
    }

    /// A call with anything in the fields that its letter will not use.
    fn noise(&mut self) -> Call {
        Call {
            letter: 0,
            ticket: Ticket {
                board: self.random.word() as u16,
                rule: self.random.word() as u16,
                length: self.random.word() as u16,
            },
            rule: Record::any(&mut self.random),
            subject: self.random.word(),
        }
    }

    fn rule_to_add(&mut self, in_force: &[Rule], slots: &[Option<Rule>]) -> Rule {
        let rule = Rule {
            number: self.free_number(in_force),
            priority: self.random.below(self.priorities) as u16,
            action: self.random.word() as u32,
            words: (self.matter.words)(&mut self.random),
        };
        let Some(known) = self.one_of(in_force) else {
            return self.spoilt(rule);
        };
        let highest = in_force.iter().map(|rule| rule.priority).max();
        let lowest = in_force.iter().map(|rule| rule.priority).min();
        let on_top = Rule {
            priority: highest.unwrap_or(0).saturating_add(1),
            ..rule
        };
        let always_on_top = match self.manner {
            Manner::Wandering => false,
            Manner::Rising => self.random.percent(80),
            Manner::Tower => true,
        };
        if always_on_top {
            return on_top;
        }
        match self.random.below(100) {
            // Known.
            0..=2 => Rule {
                number: known.number,
                ..rule
            },
            // Tied, and beside it what differs by one.
            3..=6 => Rule {
                words: known.words,
                priority: known
                    .priority
                    .wrapping_add(self.random.below(3) as u16)
                    .wrapping_sub(1),
                ..rule
            },
            // What meets every rule is often crossed.
            7..=11 => Rule {
                words: self.matter.everything,
                ..rule
            },
            // Below the rule of the last slot there is no room.
            12..=14 => match slots.last() {
                Some(Some(last)) => Rule {
                    words: last.words,
                    priority: last.priority.saturating_sub(1),
                    ..rule
                },
                _ => rule,
            },
            15..=44 => on_top,
            45..=59 => Rule {
                priority: lowest.unwrap_or(0).saturating_sub(1),
                ..rule
            },
            60..=63 => self.spoilt(rule),
            _ => rule,
        }
    }

    /// The rule with words that are not well formed, or with number 0.
    fn spoilt(&mut self, rule: Rule) -> Rule {
        match self.random.below(4) {
            0 => Rule { number: 0, ..rule },
            1 => Rule {
                words: (self.matter.mangled)(&mut self.random),
                ..rule
            },
            2 => Rule {
                words: Words {
                    a: self.random.word(),
                    b: self.random.word(),
                },
                ..rule
            },
            _ => rule,
        }
    }

    /// A number that is not in force, if a few tries find one.
    fn free_number(&mut self, in_force: &[Rule]) -> u16 {
        let is_free = |number: u16| in_force.iter().all(|rule| rule.number != number);
        let mut number = 0;
        for _ in 0..8 {
            number = 1 + self.random.below(self.most_number) as u16 % 65_535;
            if is_free(number) {
                break;
            }
        }
        number
    }

    fn one_of(&mut self, rules: &[Rule]) -> Option<Rule> {
        (!rules.is_empty()).then(|| self.random.pick(rules))
    }

    fn number_to_drop(&mut self, in_force: &[Rule]) -> u16 {
        let lowest = in_force.iter().min_by_key(|rule| rule.priority);
        match lowest {
            Some(rule) if self.manner == Manner::Tower => rule.number,
            _ => self.known_or_any(in_force),
        }
    }

    fn known_or_any(&mut self, in_force: &[Rule]) -> u16 {
        match self.one_of(in_force) {
            Some(rule) if self.random.percent(85) => rule.number,
            _ => self.random.below(self.most_number + 1) as u16,
        }
    }

    fn subject(&mut self) -> u64 {
        if self.random.percent(6) {
            self.random.word()
        } else {
            (self.matter.subject)(&mut self.random)
        }
    }

    fn strange_letter(&mut self) -> u8 {
        loop {
            let letter = self.random.word() as u8;
            if !b"ADCLSEW".contains(&letter) {
                return letter;
            }
        }
    }

    /// The ticket last given, in most cases; else one that differs from it in one thing or in all.
    fn ticket_to_give(&mut self) -> Ticket {
        let ticket = self.ticket;
        let other = |field: u16, random: &mut Random| {
            let near = random.pick(&[field.wrapping_add(1), field.wrapping_sub(1), 0, u16::MAX]);
            if random.percent(50) {
                near
            } else {
                random.word() as u16
            }
        };
        match self.random.below(100) {
            0..=4 => Ticket {
                board: other(ticket.board, &mut self.random),
                ..ticket
            },
            5..=9 => Ticket {
                rule: other(ticket.rule, &mut self.random),
                ..ticket
            },
            10..=14 => Ticket {
                length: other(ticket.length, &mut self.random),
                ..ticket
            },
            15..=17 => self.former,
            18 => Ticket::default(),
            19 => self.noise().ticket,
            _ => ticket,
        }
    }
}
