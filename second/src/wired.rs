//! The wired controller: wires, both domains, delegation, and the words of a domain's region
//! (01, "The wired controller"; the standard, chapter 4).

use std::collections::BTreeSet;

use crate::domain::{register_at, Domain, Message, Register, SOURCES};
use crate::source::{Mode, Name, Source};

#[derive(Clone, PartialEq, Eq, Debug)]
pub struct Wired {
    /// The wires that are high. Those of inactive, detached and delegated sources are remembered.
    pub high: BTreeSet<u32>,
    pub machine: Domain,
    pub supervisor: Domain,
}

/// The sources of word k that a mask names. Source 0 does not exist.
fn in_mask(k: u32, mask: u32) -> impl Iterator<Item = u32> {
    (0..32).filter(move |bit| mask >> bit & 1 == 1).map(move |bit| 32 * k + bit).filter(|i| *i != 0)
}

impl Wired {
    pub fn at_reset() -> Wired {
        Wired {
            high: BTreeSet::new(),
            machine: Domain::at_reset(Name::Machine),
            supervisor: Domain::at_reset(Name::Supervisor),
        }
    }

    pub fn domain(&self, name: Name) -> &Domain {
        match name {
            Name::Machine => &self.machine,
            Name::Supervisor => &self.supervisor,
        }
    }

    pub fn domain_mut(&mut self, name: Name) -> &mut Domain {
        match name {
            Name::Machine => &mut self.machine,
            Name::Supervisor => &mut self.supervisor,
        }
    }

    pub fn wire(&self, number: u32) -> bool {
        self.high.contains(&number)
    }

    /// Sets a wire. Both domains look at it; a source is active in at most one of them.
    pub fn set_wire(&mut self, number: u32, level: bool) {
        let before = self.wire(number);
        if level {
            self.high.insert(number);
        } else {
            self.high.remove(&number);
        }
        for domain in [&mut self.machine, &mut self.supervisor] {
            let way = domain.way;
            if let Some(active) = domain.active_mut(number) {
                active.wire_changed(way, before, level);
            }
        }
    }

    /// sourcecfg in the machine domain. Bit 10 hands the source to the child, and a write without it takes it
    /// back: either way the child starts with 0. A source that the child has already is left there as it is.
    fn write_machine_sourcecfg(&mut self, number: u32, value: u32) {
        let delegate = value >> 10 & 1 == 1;
        let delegated = *self.machine.source(number) == Source::Delegated;
        if delegate != delegated {
            *self.supervisor.source_mut(number) = Source::Inactive;
        }
        if delegate {
            *self.machine.source_mut(number) = Source::Delegated;
            return;
        }
        let (way, wire) = (self.machine.way, self.wire(number));
        self.machine.source_mut(number).take_mode(Mode::named(value & 7), way, wire);
    }

    /// sourcecfg in the child: bit 10 makes a source inactive. What was not delegated stays 0.
    fn write_supervisor_sourcecfg(&mut self, number: u32, value: u32) {
        if *self.machine.source(number) != Source::Delegated {
            return;
        }
        let mode = if value >> 10 & 1 == 1 { None } else { Mode::named(value & 7) };
        let (way, wire) = (self.supervisor.way, self.wire(number));
        self.supervisor.source_mut(number).take_mode(mode, way, wire);
    }

    /// Only the number of an active source does anything, and all 32 bits of it count.
    fn set_pending(&mut self, name: Name, number: u32) {
        let wire = self.wire(number);
        let domain = self.domain_mut(name);
        let way = domain.way;
        if let Some(active) = domain.active_mut(number) {
            active.set_pending_if_possible(way, wire);
        }
    }

    fn clear_pending(&mut self, name: Name, number: u32) {
        let domain = self.domain_mut(name);
        let way = domain.way;
        if let Some(active) = domain.active_mut(number) {
            active.clear_pending_if_possible(way);
        }
    }

    fn put_enable(&mut self, name: Name, number: u32, enabled: bool) {
        if let Some(active) = self.domain_mut(name).active_mut(number) {
            active.enabled = enabled;
        }
    }

    /// Reads a word of a domain's region.
    pub fn read(&mut self, name: Name, address: u64) -> u32 {
        let register = register_at(address);
        if let Register::Structure(hart, word) = register {
            return self.domain_mut(name).structure_read(hart, word);
        }
        let domain = self.domain(name);
        match register {
            Register::Domaincfg => domain.domaincfg(),
            Register::Sourcecfg(number) => domain.source(number).configuration(),
            // These two read what they set.
            Register::Setip(k) => domain.bits(k, |_, active| active.pending),
            Register::Setie(k) => domain.bits(k, |_, active| active.enabled),
            // The rectified value of a source, by its mode in this domain; one that is not active has none.
            Register::InClrip(k) => domain.bits(k, |number, active| active.mode.rectified(self.wire(number))),
            Register::Genmsi => domain.genmsi.number(),
            Register::Target(number) => domain.source(number).active().map_or(0, |a| a.target.number()),
            // The others can only be written.
            _ => 0,
        }
    }

    /// Writes a word of a domain's region. What it answers is the message of a genmsi write.
    pub fn write(&mut self, name: Name, address: u64, value: u32) -> Option<Message> {
        match register_at(address) {
            Register::Domaincfg => {
                let high = self.high.clone();
                self.domain_mut(name).write_domaincfg(value, |number| high.contains(&number));
            }
            Register::Sourcecfg(number) => match name {
                Name::Machine => self.write_machine_sourcecfg(number, value),
                Name::Supervisor => self.write_supervisor_sourcecfg(number, value),
            },
            Register::Setip(k) => in_mask(k, value).for_each(|number| self.set_pending(name, number)),
            Register::InClrip(k) => in_mask(k, value).for_each(|number| self.clear_pending(name, number)),
            Register::Setie(k) => in_mask(k, value).for_each(|number| self.put_enable(name, number, true)),
            Register::Clrie(k) => in_mask(k, value).for_each(|number| self.put_enable(name, number, false)),
            Register::Setipnum => self.set_pending(name, value),
            // The bytes of the number come the other way round.
            Register::SetipnumBe => self.set_pending(name, value.swap_bytes()),
            Register::Clripnum => self.clear_pending(name, value),
            Register::Setienum => self.put_enable(name, value, true),
            Register::Clrienum => self.put_enable(name, value, false),
            Register::Genmsi => return self.domain_mut(name).write_genmsi(value),
            Register::Target(number) => self.domain_mut(name).write_target(number, value),
            Register::Structure(hart, word) => self.domain_mut(name).structure_write(hart, word, value),
            Register::Zero => {}
        }
        None
    }

    /// The sending after a call: each domain, the machine domain first.
    pub fn send(&mut self) -> Vec<Message> {
        let mut sent = self.machine.send();
        sent.extend(self.supervisor.send());
        sent
    }

    /// The numbers of the wires, 1 to 63.
    pub fn is_wire(number: u64) -> bool {
        (1..=u64::from(SOURCES)).contains(&number)
    }
}
