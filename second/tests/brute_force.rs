//! Boards on small tables, held against the rules' own words by trying everything out.
//!
//! Whether rules meet is found here by trying subjects, chains by going through all lists of slots,
//! and the answer to a subject from rules in force that the test keeps for itself.

use std::marker::PhantomData;

use second::board::Answer;
use second::device::{has_a_number, on_the_table};
use second::random::Random;
use second::recorder::Event;
use second::table;
use second::{
    Board, Dial, Kind, Packet, Phase, Recorder, Refusal, Rule, SlotDevice, Ticket, Words,
};

/// A device of any kind and any number of slots.
struct Plain<K> {
    slots: Vec<Option<Rule>>,
    kind: PhantomData<K>,
}

impl<K: Kind> SlotDevice for Plain<K> {
    type Kind = K;

    fn count(&self) -> usize {
        self.slots.len()
    }

    fn read(&self, slot: usize) -> Result<Option<Rule>, Refusal> {
        on_the_table(slot, self.count())?;
        Ok(self.slots[slot])
    }

    fn write(&mut self, slot: usize, rule: Rule) -> Result<(), Refusal> {
        has_a_number(rule)?;
        on_the_table(slot, self.count())?;
        self.slots[slot] = Some(rule);
        Ok(())
    }

    fn erase(&mut self, slot: usize) -> Result<(), Refusal> {
        on_the_table(slot, self.count())?;
        self.slots[slot] = None;
        Ok(())
    }
}

/// A small world of a kind: all its subjects can be tried, and its rules differ only on them.
trait World {
    type Kind: Kind;
    fn words(random: &mut Random) -> Words;
    fn subjects() -> Vec<u64>;
}

struct DialWorld;

impl World for DialWorld {
    type Kind = Dial;

    fn words(random: &mut Random) -> Words {
        let places = random.below(4);
        let mut signs: String = (0..places)
            .map(|_| random.pick(&['0', '1', '*', 'X', 'X', 'Z']))
            .collect();
        if random.percent(60) {
            signs.push('!');
        }
        Dial::pattern(&signs).unwrap()
    }

    /// 0, 1 and star stand for the sorts of symbol that these patterns tell apart.
    fn subjects() -> Vec<u64> {
        let mut rows = vec![String::new()];
        let mut last = rows.clone();
        for _ in 0..3 {
            last = last
                .iter()
                .flat_map(|row| ['0', '1', '*'].map(|symbol| format!("{row}{symbol}")))
                .collect();
            rows.extend(last.iter().cloned());
        }
        rows.iter().map(|row| Dial::word(row).unwrap()).collect()
    }
}

struct PacketWorld;

impl World for PacketWorld {
    type Kind = Packet;

    fn words(random: &mut Random) -> Words {
        let mask = random.below(16);
        Words {
            a: random.below(16) & mask,
            b: mask,
        }
    }

    fn subjects() -> Vec<u64> {
        (0..16).collect()
    }
}

/// Meeting as the law has it.
fn meet<K: Kind>(subjects: &[u64], first: &Rule, second: &Rule) -> bool {
    subjects
        .iter()
        .any(|&subject| K::matches(first.words, subject) && K::matches(second.words, subject))
}

/// Whether a list of slots is a downward chain of the new rule, as the rules define it.
fn is_a_chain<K: Kind>(
    subjects: &[u64],
    slots: &[Option<Rule>],
    new: &Rule,
    list: &[usize],
) -> bool {
    let meeting = |slot: usize| slots[slot].filter(|rule| meet::<K>(subjects, rule, new));
    let after_every_higher = |first: usize| {
        (first..slots.len())
            .all(|slot| meeting(slot).is_none_or(|rule| rule.priority <= new.priority))
    };
    let not_after_a_lower = |first: usize| {
        (0..first).all(|slot| meeting(slot).is_none_or(|rule| rule.priority >= new.priority))
    };
    let may_move = |from: usize, to: usize| {
        slots[from].is_some_and(|rule| {
            // Up to its reach: no meeting rule of another number strictly between.
            (from + 1..to).all(|slot| {
                !slots[slot].is_some_and(|other| {
                    other.number != rule.number && meet::<K>(subjects, &rule, &other)
                })
            })
        })
    };
    let (Some(&first), Some(&last)) = (list.first(), list.last()) else {
        return false;
    };
    after_every_higher(first)
        && not_after_a_lower(first)
        && slots[last].is_none()
        && list
            .windows(2)
            .all(|pair| pair[0] < pair[1] && may_move(pair[0], pair[1]))
}

/// The length of the shortest downward chain, found among all rising lists of slots.
fn shortest<K: Kind>(subjects: &[u64], slots: &[Option<Rule>], new: &Rule) -> Option<usize> {
    (1u32..1 << slots.len())
        .map(|set| {
            (0..slots.len())
                .filter(|slot| set >> slot & 1 == 1)
                .collect::<Vec<_>>()
        })
        .filter(|list| is_a_chain::<K>(subjects, slots, new, list))
        .map(|list| list.len())
        .min()
}

/// The smallest refusal of an add on an idle board, each from its definition.
fn refusal_of_add<K: Kind>(
    subjects: &[u64],
    slots: &[Option<Rule>],
    in_force: &[Rule],
    new: &Rule,
) -> Option<Refusal> {
    let places = || 0..slots.len();
    let meeting = |slot: usize| slots[slot].filter(|rule| meet::<K>(subjects, rule, new));
    let higher = |slot: usize| meeting(slot).is_some_and(|rule| rule.priority > new.priority);
    let lower = |slot: usize| meeting(slot).is_some_and(|rule| rule.priority < new.priority);
    let equal = |slot: usize| meeting(slot).is_some_and(|rule| rule.priority == new.priority);
    if new.number == 0 || !K::rule_is_well_formed(new.words) {
        Some(Refusal::Mangled)
    } else if in_force.iter().any(|rule| rule.number == new.number) {
        Some(Refusal::Known)
    } else if places().any(equal) {
        Some(Refusal::Tied)
    } else if places().any(|slot| higher(slot) && (0..slot).any(lower)) {
        Some(Refusal::Crossed)
    } else if !places().any(|slot| {
        let is_from_low_on = (slot..slots.len()).all(|later| !higher(later));
        slots[slot].is_none() && is_from_low_on
    }) {
        Some(Refusal::NoSlot)
    } else {
        None
    }
}

/// A board with all that the test knows about it for itself.
struct Trial<W: World> {
    board: Board<Recorder<Plain<W::Kind>>>,
    subjects: Vec<u64>,
    in_force: Vec<Rule>,
    open: Option<(Ticket, Rule, Vec<usize>)>,
    events: Vec<Event>,
    adds_by_length: Vec<usize>,
}

impl<W: World> Trial<W> {
    fn new(slots: usize) -> Self {
        let device = Plain {
            slots: vec![Some(junk()); slots],
            kind: PhantomData,
        };
        Trial {
            board: Board::open(Recorder::new(device), 5),
            subjects: W::subjects(),
            in_force: Vec::new(),
            open: None,
            events: (0..slots).map(|slot| Event::Erase { slot }).collect(),
            adds_by_length: vec![0; slots + 1],
        }
    }

    /// What must hold after every single write.
    fn check(&self) {
        assert_eq!(self.board.device().events(), self.events);
        for &subject in &self.subjects {
            let expected = self
                .in_force
                .iter()
                .filter(|rule| W::Kind::matches(rule.words, subject))
                .max_by_key(|rule| rule.priority)
                .map(|rule| Answer {
                    number: rule.number,
                    action: rule.action,
                });
            assert_eq!(self.board.look_up(subject), Ok(expected));
            assert_eq!(self.board.answer_by_priority(subject), expected);
        }
        let slots = self.board.slots();
        for (slot, rule) in slots.iter().enumerate() {
            for later in &slots[slot + 1..] {
                if let (Some(rule), Some(later)) = (rule, later) {
                    let wrong = rule.number != later.number
                        && rule.priority <= later.priority
                        && meet::<W::Kind>(&self.subjects, rule, later);
                    assert!(!wrong, "the order in the slots is right");
                }
            }
        }
        if self.board.phase() == Phase::Idle {
            let mut standing: Vec<Rule> = slots.iter().flatten().copied().collect();
            let mut in_force = self.in_force.clone();
            standing.sort_by_key(|rule| rule.number);
            in_force.sort_by_key(|rule| rule.number);
            assert_eq!(standing, in_force, "every rule in force stands once");
        }
    }

    fn slot_of(&self, number: u16) -> Option<usize> {
        self.board
            .slots()
            .iter()
            .position(|slot| slot.is_some_and(|rule| rule.number == number))
    }

    fn add(&mut self, rule: Rule) {
        let slots = self.board.slots();
        let result = self.board.add(rule);
        if self.open.is_some() {
            assert_eq!(result, Err(Refusal::Busy));
            return;
        }
        if let Some(refusal) =
            refusal_of_add::<W::Kind>(&self.subjects, &slots, &self.in_force, &rule)
        {
            assert_eq!(result, Err(refusal));
            return;
        }
        let ticket = result.unwrap();
        let chain = self.board.open_chain().unwrap().to_vec();
        assert!(is_a_chain::<W::Kind>(&self.subjects, &slots, &rule, &chain));
        assert_eq!(
            ticket,
            Ticket {
                board: 5,
                rule: rule.number,
                length: chain.len()
            }
        );
        assert_eq!(
            shortest::<W::Kind>(&self.subjects, &slots, &rule),
            Some(chain.len())
        );
        self.adds_by_length[chain.len()] += 1;
        self.open = Some((ticket, rule, chain));
    }

    /// One write as the rules state it, noted before the board makes it.
    fn expect_write(&mut self, left: usize) {
        let (_, rule, chain) = self.open.as_ref().unwrap();
        let slot = chain[left - 1];
        let rule = match left {
            1 => *rule,
            _ => self.board.slots()[chain[left - 2]].unwrap(),
        };
        self.events.push(Event::Write { slot, rule });
        if left == 1 {
            self.in_force.push(rule);
        }
    }

    fn writes_left(&self) -> usize {
        let (ticket, _, _) = self.open.as_ref().unwrap();
        ticket.length - self.board.writes_made().unwrap()
    }

    fn step(&mut self) {
        let Some((ticket, _, _)) = self.open else {
            let made_up = Ticket {
                board: 5,
                rule: 1,
                length: 1,
            };
            assert_eq!(self.board.step(made_up), Err(Refusal::Foreign));
            return;
        };
        match self.writes_left() {
            0 => assert_eq!(self.board.step(ticket), Err(Refusal::RunOut)),
            left => {
                self.expect_write(left);
                assert_eq!(self.board.step(ticket), Ok(left - 1));
            }
        }
    }

    fn complete(&mut self) {
        let Some((ticket, rule, chain)) = self.open.clone() else {
            let made_up = Ticket {
                board: 5,
                rule: 1,
                length: 1,
            };
            assert_eq!(self.board.complete(made_up), Err(Refusal::Foreign));
            return;
        };
        // Every copy moves one along the chain, so the sources are what the slots hold now.
        let slots = self.board.slots();
        for left in (1..=self.writes_left()).rev() {
            let copy = match left {
                1 => rule,
                _ => slots[chain[left - 2]].unwrap(),
            };
            self.events.push(Event::Write {
                slot: chain[left - 1],
                rule: copy,
            });
            if left == 1 {
                self.in_force.push(rule);
            }
        }
        assert_eq!(self.board.complete(ticket), Ok(ticket.length));
        self.open = None;
    }

    fn withdraw(&mut self) {
        let Some((ticket, _, chain)) = self.open.clone() else {
            let made_up = Ticket {
                board: 5,
                rule: 1,
                length: 1,
            };
            assert_eq!(self.board.withdraw(made_up), Err(Refusal::Foreign));
            return;
        };
        let left = self.writes_left();
        if left > 0 && left < ticket.length {
            self.events.push(Event::Erase { slot: chain[left] });
        }
        assert_eq!(self.board.withdraw(ticket), Ok(left == 0));
        self.open = None;
    }

    fn drop(&mut self, number: u16) {
        let expected = match (self.open.is_some(), self.slot_of(number)) {
            (true, _) => Err(Refusal::Busy),
            (false, None) => Err(Refusal::Unknown),
            (false, Some(slot)) => {
                self.events.push(Event::Erase { slot });
                self.in_force.retain(|rule| rule.number != number);
                Ok(())
            }
        };
        assert_eq!(self.board.drop(number), expected);
    }

    fn change(&mut self, number: u16, action: u32) {
        let expected = match (self.open.is_some(), self.slot_of(number)) {
            (true, _) => Err(Refusal::Busy),
            (false, None) => Err(Refusal::Unknown),
            (false, Some(slot)) => {
                let rule = self
                    .in_force
                    .iter_mut()
                    .find(|rule| rule.number == number)
                    .unwrap();
                rule.action = action;
                self.events.push(Event::Write { slot, rule: *rule });
                Ok(())
            }
        };
        assert_eq!(self.board.change(number, action), expected);
    }

    fn play(&mut self, random: &mut Random, calls: usize) {
        for _ in 0..calls {
            let number = random.below(13) as u16;
            match random.below(100) {
                0..=34 => {
                    let rule = Rule {
                        number,
                        priority: random.below(60) as u16,
                        action: random.below(1000) as u32,
                        words: W::words(random),
                    };
                    self.add(rule);
                }
                35..=69 => self.step(),
                70..=79 => self.complete(),
                80..=84 => self.withdraw(),
                85..=94 => self.drop(number),
                _ => self.change(number, random.below(1000) as u32),
            }
            self.check();
        }
    }
}

/// What a device may hold before a board opens on it.
fn junk() -> Rule {
    Rule {
        number: 77,
        priority: 7,
        action: 7,
        words: Words { a: 0, b: 0 },
    }
}

fn boards_of<W: World>(seed: u64) {
    let mut random = Random::new(seed);
    let mut longest = 0;
    for slots in 0..=7 {
        for _ in 0..6 {
            let mut trial = Trial::<W>::new(slots);
            trial.play(&mut random, 500);
            longest = longest.max(
                trial
                    .adds_by_length
                    .iter()
                    .rposition(|&adds| adds > 0)
                    .unwrap_or(0),
            );
        }
    }
    assert!(
        longest >= 5,
        "the trials should have had long chains, but {longest} was the longest"
    );
}

#[test]
fn dial_boards_do_what_the_rules_say_after_every_write() {
    boards_of::<DialWorld>(1);
}

#[test]
fn packet_boards_do_what_the_rules_say_after_every_write() {
    boards_of::<PacketWorld>(2);
}

/// Tables in any order, such as no board has: the jump rule asks for nothing but the reaches.
fn chains_of<W: World>(seed: u64) {
    let mut random = Random::new(seed);
    let subjects = W::subjects();
    let (mut found, mut none) = (0, 0);
    for _ in 0..3_000 {
        let count = 1 + random.below(8);
        let slots: Vec<Option<Rule>> = (1..=count)
            .map(|number| {
                let rule = Rule {
                    number: number as u16,
                    priority: random.below(20) as u16,
                    action: 0,
                    words: W::words(&mut random),
                };
                random.percent(80).then_some(rule)
            })
            .collect();
        let new = Rule {
            number: 99,
            priority: 5 + random.below(20) as u16,
            action: 0,
            words: W::words(&mut random),
        };
        if table::crossed::<W::Kind>(&slots, &new) {
            continue;
        }
        let chain = table::chain::<W::Kind>(&slots, &new);
        if let Some(chain) = &chain {
            assert!(is_a_chain::<W::Kind>(&subjects, &slots, &new, chain));
            found += 1;
        } else {
            none += 1;
        }
        assert_eq!(
            chain.map(|chain| chain.len()),
            shortest::<W::Kind>(&subjects, &slots, &new)
        );
    }
    assert!(
        found > 500 && none > 50,
        "{found} chains and {none} times none"
    );
}

#[test]
fn the_jump_rule_finds_a_shortest_chain_of_dial_rules() {
    chains_of::<DialWorld>(3);
}

#[test]
fn the_jump_rule_finds_a_shortest_chain_of_packet_rules() {
    chains_of::<PacketWorld>(4);
}

/// The law on the very rules that these trials use.
fn law_of<W: World>(seed: u64) {
    let mut random = Random::new(seed);
    let subjects = W::subjects();
    for _ in 0..20_000 {
        let rule = |words| Rule {
            number: 1,
            words,
            ..Rule::ZERO
        };
        let (first, second) = (rule(W::words(&mut random)), rule(W::words(&mut random)));
        assert_eq!(
            W::Kind::meet(first.words, second.words),
            meet::<W::Kind>(&subjects, &first, &second)
        );
    }
}

#[test]
fn rules_meet_exactly_when_a_subject_is_matched_by_both() {
    law_of::<DialWorld>(5);
    law_of::<PacketWorld>(6);
}
