//! The board: a device, the rules in force, and at most one open add.

use crate::device::SlotDevice;
use crate::kind::Kind;
use crate::refusal::Refusal;
use crate::rule::Rule;
use crate::table;

/// Slots from this one on are erased at the opening and not used after that.
pub const MOST_USED_SLOTS: usize = 480;

/// What an add gives, and what it must be given back by: complete or withdraw.
///
/// A ticket is what it names. It is therefore a plain value, and a refused one need not be handed
/// back: the caller still has it.
#[must_use = "a ticket must be given back by complete or by withdraw"]
#[derive(Clone, Copy, Debug, PartialEq, Eq)]
pub struct Ticket {
    pub board: u16,
    pub rule: u16,
    /// The length of the chain, which is the number of writes announced.
    pub length: usize,
}

#[derive(Clone, Copy, Debug, PartialEq, Eq, PartialOrd, Ord)]
pub enum Phase {
    /// No ticket is open.
    Idle,
    /// A ticket is open and writes are left.
    Shifting,
    /// A ticket is open and no write is left.
    Written,
}

/// An add under way.
#[derive(Clone, Debug, PartialEq, Eq)]
struct OpenAdd {
    rule: Rule,
    chain: Vec<usize>,
    writes_made: usize,
}

impl OpenAdd {
    fn writes_left(&self) -> usize {
        self.chain.len() - self.writes_made
    }

    /// The slot that write number `write` fills; write 0 fills the end of the chain.
    fn slot_of_write(&self, write: usize) -> usize {
        self.chain[self.chain.len() - 1 - write]
    }

    /// The slot last written, if any write was made.
    fn last_written(&self) -> Option<usize> {
        self.writes_made
            .checked_sub(1)
            .map(|write| self.slot_of_write(write))
    }
}

/// The number and action that a look-up finds.
#[derive(Clone, Copy, Debug, PartialEq, Eq)]
pub struct Answer {
    pub number: u16,
    pub action: u32,
}

pub struct Board<Device> {
    device: Device,
    number: u16,
    in_force: Vec<Rule>,
    open: Option<OpenAdd>,
}

/// Said of a slot that the board has worked out itself and knows to be there.
const ON_THE_TABLE: &str = "the board keeps to the slots of its device";

impl<Device: SlotDevice> Board<Device> {
    /// Erases every slot of the device once, from slot 0 up, also those that are not used after.
    pub fn open(mut device: Device, number: u16) -> Self {
        for slot in 0..device.count() {
            device.erase(slot).expect(ON_THE_TABLE);
        }
        Board {
            device,
            number,
            in_force: Vec::new(),
            open: None,
        }
    }

    /// Gives the device back, as the calls left it.
    pub fn give_up(self) -> Device {
        self.device
    }

    pub fn device(&self) -> &Device {
        &self.device
    }

    pub fn rules_in_force(&self) -> &[Rule] {
        &self.in_force
    }

    pub fn phase(&self) -> Phase {
        match &self.open {
            None => Phase::Idle,
            Some(open) if open.writes_left() > 0 => Phase::Shifting,
            Some(_) => Phase::Written,
        }
    }

    /// The chain of the open add.
    pub fn open_chain(&self) -> Option<&[usize]> {
        self.open.as_ref().map(|open| open.chain.as_slice())
    }

    /// The writes that the open add has made.
    pub fn writes_made(&self) -> Option<usize> {
        self.open.as_ref().map(|open| open.writes_made)
    }

    /// What the used slots hold.
    pub fn slots(&self) -> Vec<Option<Rule>> {
        (0..self.device.count().min(MOST_USED_SLOTS))
            .map(|slot| self.device.read(slot).expect(ON_THE_TABLE))
            .collect()
    }

    /// Opens a ticket. Writes nothing.
    pub fn add(&mut self, rule: Rule) -> Result<Ticket, Refusal> {
        if self.phase() != Phase::Idle {
            return Err(Refusal::Busy);
        }
        if rule.number == 0 || !Device::Kind::rule_is_well_formed(rule.words) {
            return Err(Refusal::Mangled);
        }
        if self
            .in_force
            .iter()
            .any(|known| known.number == rule.number)
        {
            return Err(Refusal::Known);
        }
        let slots = self.slots();
        if table::tied::<Device::Kind>(&slots, &rule) {
            return Err(Refusal::Tied);
        }
        if table::crossed::<Device::Kind>(&slots, &rule) {
            return Err(Refusal::Crossed);
        }
        if !table::has_an_empty_slot_from_low::<Device::Kind>(&slots, &rule) {
            return Err(Refusal::NoSlot);
        }
        let chain = table::chain::<Device::Kind>(&slots, &rule)
            .expect("a chain leads to the empty slot that was found");
        let ticket = Ticket {
            board: self.number,
            rule: rule.number,
            length: chain.len(),
        };
        self.open = Some(OpenAdd {
            rule,
            chain,
            writes_made: 0,
        });
        Ok(ticket)
    }

    /// Makes one write and answers the writes left.
    pub fn step(&mut self, ticket: Ticket) -> Result<usize, Refusal> {
        self.named_by(ticket)?;
        if self.phase() == Phase::Written {
            return Err(Refusal::RunOut);
        }
        Ok(self.make_one_write())
    }

    /// Makes the writes left, takes the ticket and answers the announced count.
    pub fn complete(&mut self, ticket: Ticket) -> Result<usize, Refusal> {
        self.named_by(ticket)?;
        while self.phase() == Phase::Shifting {
            self.make_one_write();
        }
        self.open = None;
        Ok(ticket.length)
    }

    /// Takes the ticket and answers whether the new rule is in force.
    pub fn withdraw(&mut self, ticket: Ticket) -> Result<bool, Refusal> {
        let open = self.named_by(ticket)?;
        let in_force = open.writes_left() == 0;
        if !in_force {
            // The slot last written holds a second copy of a rule: the one in the slot before it in
            // the chain. With that copy gone every rule stands once again.
            if let Some(slot) = open.last_written() {
                self.device.erase(slot).expect(ON_THE_TABLE);
            }
        }
        self.open = None;
        Ok(in_force)
    }

    /// Erases the rule's slot.
    pub fn drop(&mut self, number: u16) -> Result<(), Refusal> {
        let (slot, _) = self.find_when_idle(number)?;
        self.device.erase(slot).expect(ON_THE_TABLE);
        self.in_force.retain(|rule| rule.number != number);
        Ok(())
    }

    /// Writes the rule again with the given action, also when it had that action already.
    pub fn change(&mut self, number: u16, action: u32) -> Result<(), Refusal> {
        let (slot, rule) = self.find_when_idle(number)?;
        let changed = Rule { action, ..rule };
        self.device.write(slot, changed).expect(ON_THE_TABLE);
        for rule in self
            .in_force
            .iter_mut()
            .filter(|rule| rule.number == number)
        {
            rule.action = action;
        }
        Ok(())
    }

    /// Number and action of the rule in the lowest slot that matches.
    pub fn look_up(&self, subject: u64) -> Result<Option<Answer>, Refusal> {
        if !Device::Kind::subject_is_well_formed(subject) {
            return Err(Refusal::Misdialled);
        }
        let rule = self
            .device
            .first_match(subject)
            .and_then(|slot| self.device.read(slot).expect(ON_THE_TABLE));
        Ok(rule.map(answer))
    }

    /// The answer of the rules in force: that of the matching rule with the highest priority. A
    /// look-up must always say the same; it is here so that this can be tried out.
    pub fn answer_by_priority(&self, subject: u64) -> Option<Answer> {
        self.in_force
            .iter()
            .filter(|rule| Device::Kind::matches(rule.words, subject))
            .max_by_key(|rule| rule.priority)
            .copied()
            .map(answer)
    }

    /// The open add, if the ticket names it.
    fn named_by(&self, ticket: Ticket) -> Result<&OpenAdd, Refusal> {
        self.open
            .as_ref()
            .filter(|open| {
                ticket.board == self.number
                    && ticket.rule == open.rule.number
                    && ticket.length == open.chain.len()
            })
            .ok_or(Refusal::Foreign)
    }

    /// The slot and the rule with the number, for the calls that need an idle board.
    fn find_when_idle(&self, number: u16) -> Result<(usize, Rule), Refusal> {
        if self.phase() != Phase::Idle {
            return Err(Refusal::Busy);
        }
        // No rule in a slot has number 0, so 0 is in no slot.
        self.slots()
            .into_iter()
            .enumerate()
            .find_map(|(slot, taken)| {
                taken
                    .filter(|rule| rule.number == number)
                    .map(|rule| (slot, rule))
            })
            .ok_or(Refusal::Unknown)
    }

    /// The next write of the open add, from the chain's end: each slot receives a copy of the rule in
    /// the chain's slot before it, and the first slot the new rule. Answers the writes left.
    fn make_one_write(&mut self) -> usize {
        let open = self.open.as_mut().expect("an add is open");
        let slot = open.slot_of_write(open.writes_made);
        let rule = if open.writes_left() == 1 {
            open.rule
        } else {
            let before = open.slot_of_write(open.writes_made + 1);
            self.device
                .read(before)
                .expect(ON_THE_TABLE)
                .expect("every slot of a chain but its end is taken")
        };
        self.device.write(slot, rule).expect(ON_THE_TABLE);
        open.writes_made += 1;
        if open.writes_left() == 0 {
            self.in_force.push(open.rule);
        }
        open.writes_left()
    }
}

fn answer(rule: Rule) -> Answer {
    Answer {
        number: rule.number,
        action: rule.action,
    }
}
