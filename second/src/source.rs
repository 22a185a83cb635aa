//! One interrupt source in one domain (01, "The wired controller"; the standard, 4.5.2, 4.5.16, 4.7).

/// Whether a domain delivers directly (DM = 0) or by messages (DM = 1).
#[derive(Clone, Copy, PartialEq, Eq, Debug)]
pub enum Way {
    Direct,
    Messages,
}

#[derive(Clone, Copy, PartialEq, Eq, Debug)]
pub enum Name {
    Machine,
    Supervisor,
}

/// The active modes of bits 2:0 of sourcecfg.
#[derive(Clone, Copy, PartialEq, Eq, Debug)]
pub enum Mode {
    Detached,
    Edge1,
    Edge0,
    Level1,
    Level0,
}

impl Mode {
    pub fn number(self) -> u32 {
        match self {
            Mode::Detached => 1,
            Mode::Edge1 => 4,
            Mode::Edge0 => 5,
            Mode::Level1 => 6,
            Mode::Level0 => 7,
        }
    }

    /// The mode of a number. Numbers 2 and 3 are no modes and make a source inactive, as 0 does.
    pub fn named(number: u32) -> Option<Mode> {
        match number {
            1 => Some(Mode::Detached),
            4 => Some(Mode::Edge1),
            5 => Some(Mode::Edge0),
            6 => Some(Mode::Level1),
            7 => Some(Mode::Level0),
            _ => None,
        }
    }

    pub fn is_level(self) -> bool {
        matches!(self, Mode::Level1 | Mode::Level0)
    }

    /// Edge1 and Level1 take the wire as it is, Edge0 and Level0 turn it round, and Detached is low.
    pub fn rectified(self, wire: bool) -> bool {
        match self {
            Mode::Detached => false,
            Mode::Edge1 | Mode::Level1 => wire,
            Mode::Edge0 => !wire,
            Mode::Level0 => !wire,
        }
    }
}

#[derive(Clone, Copy, PartialEq, Eq, Debug)]
pub enum Target {
    Direct { hart: u32, priority: u32 },
    Message { hart: u32, guest: u32, identity: u32 },
}

impl Target {
    /// The target of a source that has just become active: as a number 1 in direct mode, 0 in message mode.
    pub fn start(way: Way) -> Target {
        match way {
            Way::Direct => Target::Direct { hart: 0, priority: 1 },
            Way::Messages => Target::Message { hart: 0, guest: 0, identity: 0 },
        }
    }

    /// What a written value is kept as.
    pub fn written(value: u32, way: Way, name: Name) -> Target {
        let hart = value >> 18 & 3;
        let low = value & 0xFF;
        match way {
            // There is no priority 0: 1 takes its place.
            Way::Direct => Target::Direct { hart, priority: low.max(1) },
            // Bits 13:12 are the guest index, which the machine domain does not have.
            Way::Messages => {
                let guest = if name == Name::Supervisor { value >> 12 & 3 } else { 0 };
                Target::Message { hart, guest, identity: low }
            }
        }
    }

    pub fn number(self) -> u32 {
        match self {
            Target::Direct { hart, priority } => hart << 18 | priority,
            Target::Message { hart, guest, identity } => hart << 18 | guest << 12 | identity,
        }
    }
}

/// What an active source holds.
#[derive(Clone, Copy, PartialEq, Eq, Debug)]
pub struct Active {
    pub mode: Mode,
    pub pending: bool,
    pub enabled: bool,
    pub target: Target,
}

impl Active {
    /// A source that was not active before: it is not enabled, and its target is the one to start with.
    pub fn new(mode: Mode, way: Way) -> Active {
        Active { mode, pending: false, enabled: false, target: Target::start(way) }
    }

    /// The bullets of 4.7 on a pending bit that a register write would set.
    pub fn set_pending_if_possible(&mut self, way: Way, wire: bool) {
        match (self.mode.is_level(), way) {
            (false, _) => self.pending = true,
            (true, Way::Direct) => {}
            (true, Way::Messages) => self.pending |= self.mode.rectified(wire),
        }
    }

    /// The bullets of 4.7 on a pending bit that a register write or a claim would clear.
    pub fn clear_pending_if_possible(&mut self, way: Way) {
        match (self.mode.is_level(), way) {
            (false, _) => self.pending = false,
            (true, Way::Direct) => {}
            (true, Way::Messages) => self.pending = false,
        }
    }

    /// What 4.7 says of a level source at any time: in direct mode pending is the rectified value itself; in
    /// message mode it falls with that value.
    pub fn follow_level(&mut self, way: Way, wire: bool) {
        let high = self.mode.rectified(wire);
        match (self.mode.is_level(), way) {
            (false, _) => {}
            (true, Way::Direct) => self.pending = high,
            (true, Way::Messages) => self.pending &= high,
        }
    }

    /// What a change of the wire does: a rise of the rectified value sets pending, but for level sources in
    /// direct mode, which copy it anyway.
    pub fn wire_changed(&mut self, way: Way, before: bool, after: bool) {
        if !self.mode.rectified(before) && self.mode.rectified(after) {
            self.pending = true;
        }
        self.follow_level(way, after);
    }

    /// Another mode by a sourcecfg write: enable and target stay. If the rectified value rises with it, the
    /// source becomes pending; the rest is as 4.7 has it.
    pub fn change_mode(&mut self, mode: Mode, was_high: bool, way: Way, wire: bool) {
        self.mode = mode;
        if !was_high && mode.rectified(wire) {
            self.pending = true;
        }
        self.follow_level(way, wire);
    }
}

/// A source in a domain. What is inactive or delegated holds nothing: pending, enable and target are 0.
#[derive(Clone, Copy, PartialEq, Eq, Debug)]
pub enum Source {
    Inactive,
    /// In the machine domain only: the child has the source.
    Delegated,
    Active(Active),
}

impl Source {
    pub fn active(&self) -> Option<&Active> {
        match self {
            Source::Active(active) => Some(active),
            _ => None,
        }
    }

    pub fn active_mut(&mut self) -> Option<&mut Active> {
        match self {
            Source::Active(active) => Some(active),
            _ => None,
        }
    }

    /// What sourcecfg reads: for a delegated source bit 10, and 0 as the child index.
    pub fn configuration(&self) -> u32 {
        match self {
            Source::Inactive => 0,
            Source::Delegated => 0x400,
            Source::Active(active) => active.mode.number(),
        }
    }

    /// Takes a mode by a sourcecfg write in the source's own domain; no mode makes it inactive.
    pub fn take_mode(&mut self, mode: Option<Mode>, way: Way, wire: bool) {
        let Some(mode) = mode else {
            *self = Source::Inactive;
            return;
        };
        // Before the write only a source that is active in this domain can have been high.
        let was_high = self.active().is_some_and(|active| active.mode.rectified(wire));
        let mut active = self.active().copied().unwrap_or(Active::new(mode, way));
        active.change_mode(mode, was_high, way, wire);
        *self = Source::Active(active);
    }
}
