//! One message file (01, "One message file"; the standard, chapter 3).

use std::collections::BTreeSet;

/// Select 0x70 (3.8.1).
#[derive(Clone, Copy, PartialEq, Eq, Debug)]
pub enum Delivery {
    Off,
    On,
    /// The signal comes from the wired controller.
    Wired,
}

impl Delivery {
    pub fn number(self) -> u64 {
        match self {
            Delivery::Off => 0,
            Delivery::On => 1,
            Delivery::Wired => 0x4000_0000,
        }
    }

    /// The numbers 0 and 1 are off and on; 0x40000000 is for files 0 and 1 and no guest's. All 64 bits count.
    pub fn named(number: u64, guest: bool) -> Option<Delivery> {
        match number {
            0 => Some(Delivery::Off),
            1 => Some(Delivery::On),
            0x4000_0000 if !guest => Some(Delivery::Wired),
            _ => None,
        }
    }
}

/// What a legal select number names.
#[derive(Clone, Copy, PartialEq, Eq, Debug)]
pub enum Register {
    Delivery,
    Threshold,
    /// Identities 64 j to 64 j + 63.
    Pending(u32),
    Enable(u32),
    /// Reads 0 and ignores writes.
    Zero,
}

/// The register of a select number; none if the number is illegal.
pub fn register_of(select: u64) -> Option<Register> {
    let word = |base: u64| ((select - base) / 2) as u32;
    match select {
        0x70 => Some(Register::Delivery),
        0x72 => Some(Register::Threshold),
        // Legal, though nothing is stored there.
        0x71 | 0x73..=0x7F => Some(Register::Zero),
        // Of the words only the even numbers are legal.
        0x80..=0xFF if select % 2 == 1 => None,
        0x80..=0x86 => Some(Register::Pending(word(0x80))),
        0xC0..=0xC6 => Some(Register::Enable(word(0xC0))),
        // Words of identities that the file has not.
        0x80..=0xFF => Some(Register::Zero),
        // Before 0x70 and after 0xFF there is nothing.
        _ => None,
    }
}

/// How a register is accessed.
#[derive(Clone, Copy, PartialEq, Eq, Debug)]
pub enum Kind {
    Read,
    Write,
    Set,
    Clear,
}

impl Kind {
    pub fn named(number: u64) -> Option<Kind> {
        match number {
            0 => Some(Kind::Read),
            1 => Some(Kind::Write),
            2 => Some(Kind::Set),
            3 => Some(Kind::Clear),
            _ => None,
        }
    }
}

#[derive(Clone, PartialEq, Eq, Debug)]
pub struct MessageFile {
    /// Files 2 to 4 of a hart are guest files.
    pub guest: bool,
    pub delivery: Delivery,
    pub threshold: u64,
    pub pending: BTreeSet<u32>,
    pub enabled: BTreeSet<u32>,
}

/// The identities of word j that a 64-bit number has set; identity 0 is always 0.
fn identities(j: u32, number: u64) -> impl Iterator<Item = u32> {
    (0..64).filter(move |bit| number >> bit & 1 == 1).map(move |bit| 64 * j + bit).filter(|i| *i != 0)
}

fn word_of(set: &BTreeSet<u32>, j: u32) -> u64 {
    set.range(64 * j..64 * j + 64).fold(0, |word, i| word | 1 << (i % 64))
}

fn put_word(set: &mut BTreeSet<u32>, j: u32, number: u64) {
    set.retain(|i| i / 64 != j);
    set.extend(identities(j, number));
}

impl MessageFile {
    /// A file after a reset: it is empty, and signals for the wired controller unless it is a guest file.
    pub fn at_reset(guest: bool) -> MessageFile {
        let delivery = if guest { Delivery::Off } else { Delivery::Wired };
        MessageFile { guest, delivery, threshold: 0, pending: BTreeSet::new(), enabled: BTreeSet::new() }
    }

    /// An identity, 1 to 255, becomes pending, whatever the delivery is; any other number is lost.
    pub fn arrive(&mut self, number: u32) {
        if (1..=255).contains(&number) {
            self.pending.insert(number);
        }
    }

    /// A write to the file's page: offset 0x000, and 0x004 with the four bytes reversed.
    pub fn page_write(&mut self, offset: u64, value: u32) {
        match offset {
            0x000 => self.arrive(value),
            0x004 => self.arrive(value.swap_bytes()),
            _ => {}
        }
    }

    /// Of the identities that are pending, enabled and less than the threshold, the lowest. With threshold 0
    /// it is the lowest of those that are pending and enabled.
    pub fn top_identity(&self) -> Option<u32> {
        let passes = |i: u32| self.threshold == 0 || u64::from(i) < self.threshold;
        self.pending.iter().copied().find(|i| self.enabled.contains(i) && passes(*i))
    }

    /// That identity in both halves of a word, or 0; delivery plays no part.
    pub fn top(&self) -> u64 {
        self.top_identity().map_or(0, |i| u64::from(i) * 65536 + u64::from(i))
    }

    /// Answers the top, whose identity is then pending no more; where there is no top, nothing changes.
    pub fn claim(&mut self) -> u64 {
        let answer = self.top();
        if let Some(i) = self.top_identity() {
            self.pending.remove(&i);
        }
        answer
    }

    pub fn get(&self, register: Register) -> u64 {
        match register {
            Register::Delivery => self.delivery.number(),
            Register::Threshold => self.threshold,
            Register::Pending(j) => word_of(&self.pending, j),
            Register::Enable(j) => word_of(&self.enabled, j),
            Register::Zero => 0,
        }
    }

    pub fn put(&mut self, register: Register, value: u64) {
        match register {
            // A value that is no delivery of this file changes nothing.
            Register::Delivery => self.delivery = Delivery::named(value, self.guest).unwrap_or(self.delivery),
            // Bits 7:0.
            Register::Threshold => self.threshold = value % 256,
            Register::Pending(j) => put_word(&mut self.pending, j, value),
            Register::Enable(j) => put_word(&mut self.enabled, j, value),
            Register::Zero => {}
        }
    }

    /// Set adds the bits of the value to the old number, clear takes them out of it; both answer that number.
    pub fn access(&mut self, kind: Kind, register: Register, value: u64) -> u64 {
        let old = self.get(register);
        match kind {
            Kind::Read => {}
            Kind::Write => self.put(register, value),
            Kind::Set => self.put(register, old | value),
            Kind::Clear => self.put(register, old & !value),
        }
        // Only a write does not tell what was there.
        match kind {
            Kind::Write => 0,
            _ => old,
        }
    }

    /// The file's own signal: its delivery is on, and it has a top.
    pub fn signals(&self) -> bool {
        self.delivery == Delivery::On && self.top() != 0
    }
}
