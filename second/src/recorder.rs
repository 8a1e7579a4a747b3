//! A device that notes every write and erase that it carries out.
//!
//! The list of events stands for the trace in its plainest form: whatever a device's own rule makes
//! of its events, it makes of exactly these in this order.

use crate::device::SlotDevice;
use crate::refusal::Refusal;
use crate::rule::Rule;

#[derive(Clone, Copy, Debug, PartialEq, Eq)]
pub enum Event {
    Write { slot: usize, rule: Rule },
    Erase { slot: usize },
}

pub struct Recorder<Device> {
    device: Device,
    events: Vec<Event>,
}

impl<Device: SlotDevice> Recorder<Device> {
    pub fn new(device: Device) -> Self {
        Recorder {
            device,
            events: Vec::new(),
        }
    }

    pub fn events(&self) -> &[Event] {
        &self.events
    }

    pub fn give_up(self) -> Device {
        self.device
    }
}

impl<Device: SlotDevice> SlotDevice for Recorder<Device> {
    type Kind = Device::Kind;

    fn count(&self) -> usize {
        self.device.count()
    }

    fn read(&self, slot: usize) -> Result<Option<Rule>, Refusal> {
        self.device.read(slot)
    }

    fn write(&mut self, slot: usize, rule: Rule) -> Result<(), Refusal> {
        self.device.write(slot, rule)?;
        self.events.push(Event::Write { slot, rule });
        Ok(())
    }

    fn erase(&mut self, slot: usize) -> Result<(), Refusal> {
        self.device.erase(slot)?;
        self.events.push(Event::Erase { slot });
        Ok(())
    }
}
