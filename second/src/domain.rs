//! One interrupt domain: its stored numbers and what its sources send (01, "The wired controller").

use crate::delivery::{Structure, Word};
use crate::source::{Active, Name, Source, Target, Way};

pub const SOURCES: u32 = 63;

/// The destination that a genmsi write left.
#[derive(Clone, Copy, PartialEq, Eq, Debug, Default)]
pub struct Genmsi {
    pub hart: u32,
    pub identity: u32,
}

impl Genmsi {
    pub fn number(self) -> u32 {
        self.hart << 18 | self.identity
    }
}

/// A message on its way to a file.
#[derive(Clone, Copy, PartialEq, Eq, Debug)]
pub struct Message {
    pub hart: u32,
    pub file: u32,
    pub identity: u32,
}

impl Message {
    /// The word of the log: the identity, above it the file from bit 8 on and the hart from bit 11 on.
    pub fn logged(self) -> u32 {
        self.hart * 2048 + self.file * 256 + self.identity
    }
}

#[derive(Clone, PartialEq, Eq, Debug)]
pub struct Domain {
    pub name: Name,
    pub ie: bool,
    pub way: Way,
    /// Sources 1 to 63.
    pub sources: Vec<Source>,
    pub genmsi: Genmsi,
    pub structures: [Structure; 4],
}

/// A word of a domain's region, by its address.
#[derive(Clone, Copy, PartialEq, Eq, Debug)]
pub enum Register {
    Domaincfg,
    Sourcecfg(u32),
    Setip(u32),
    InClrip(u32),
    Setie(u32),
    Clrie(u32),
    Setipnum,
    Clripnum,
    Setienum,
    Clrienum,
    SetipnumBe,
    Genmsi,
    Target(u32),
    Structure(usize, Word),
    /// A word with no name: it reads 0 and stores nothing.
    Zero,
}

fn structure_register(offset: u64) -> Register {
    let hart = (offset / 32) as usize;
    if hart > 3 {
        return Register::Zero;
    }
    match offset % 32 {
        0x00 => Register::Structure(hart, Word::Idelivery),
        0x04 => Register::Structure(hart, Word::Iforce),
        0x08 => Register::Structure(hart, Word::Ithreshold),
        0x18 => Register::Structure(hart, Word::Topi),
        0x1C => Register::Structure(hart, Word::Claimi),
        _ => Register::Zero,
    }
}

/// The register at an address that is a multiple of 4 in the region.
pub fn register_at(address: u64) -> Register {
    let word = |base: u64| ((address - base) / 4) as u32;
    match address {
        0x0000 => Register::Domaincfg,
        0x0004..=0x00FC => Register::Sourcecfg(word(0)),
        0x1C00 | 0x1C04 => Register::Setip(word(0x1C00)),
        0x1D00 | 0x1D04 => Register::InClrip(word(0x1D00)),
        0x1E00 | 0x1E04 => Register::Setie(word(0x1E00)),
        0x1F00 | 0x1F04 => Register::Clrie(word(0x1F00)),
        0x1CDC => Register::Setipnum,
        0x1DDC => Register::Clripnum,
        0x1EDC => Register::Setienum,
        0x1FDC => Register::Clrienum,
        // With BE = 0 setipnum_le does what setipnum does (4.5.13).
        0x2000 => Register::Setipnum,
        0x2004 => Register::SetipnumBe,
        0x3000 => Register::Genmsi,
        0x3004..=0x30FC => Register::Target(word(0x3000)),
        0x4000.. => structure_register(address - 0x4000),
        _ => Register::Zero,
    }
}

impl Domain {
    pub fn at_reset(name: Name) -> Domain {
        Domain {
            name,
            ie: false,
            way: Way::Direct,
            sources: vec![Source::Inactive; SOURCES as usize],
            genmsi: Genmsi::default(),
            structures: [Structure::default(); 4],
        }
    }

    pub fn source(&self, number: u32) -> &Source {
        &self.sources[number as usize - 1]
    }

    pub fn source_mut(&mut self, number: u32) -> &mut Source {
        &mut self.sources[number as usize - 1]
    }

    /// The active sources with their numbers, lowest first.
    pub fn active_sources(&self) -> impl Iterator<Item = (u32, &Active)> {
        (1..).zip(&self.sources).filter_map(|(i, source)| source.active().map(|active| (i, active)))
    }

    /// The active source of a number, if the number is one of an active source.
    pub fn active_mut(&mut self, number: u32) -> Option<&mut Active> {
        if number == 0 || number > SOURCES {
            return None;
        }
        self.source_mut(number).active_mut()
    }

    /// What is read: 0x80 in the top byte, IE in bit 8, and in bit 2 DM, which is 1 for messages.
    pub fn domaincfg(&self) -> u32 {
        let dm = u32::from(self.way == Way::Messages);
        0x8000_0000 | u32::from(self.ie) << 8 | dm << 2
    }

    /// Another DM empties genmsi, and every active source begins again with the first target of that mode. In
    /// direct mode the pending bit of a level source is a copy of its rectified value (4.7).
    pub fn write_domaincfg(&mut self, value: u32, wire: impl Fn(u32) -> bool) {
        let way = if value >> 2 & 1 == 1 { Way::Messages } else { Way::Direct };
        self.ie = value >> 8 & 1 == 1;
        if way == self.way {
            return;
        }
        self.way = way;
        self.genmsi = Genmsi::default();
        for (number, source) in (1..).zip(&mut self.sources) {
            if let Some(active) = source.active_mut() {
                active.target = Target::start(way);
                active.follow_level(way, wire(number));
            }
        }
    }

    /// In message mode alone: bits 19:18, the hart, and 7:0, the identity, are stored, and their message goes
    /// out with IE or without.
    pub fn write_genmsi(&mut self, value: u32) -> Option<Message> {
        if self.way == Way::Direct {
            return None;
        }
        self.genmsi = Genmsi { hart: value >> 18 & 3, identity: value & 0xFF };
        // From the machine domain to file 0, from the child to file 1.
        let file = if self.name == Name::Machine { 0 } else { 1 };
        Some(Message { hart: self.genmsi.hart, file, identity: self.genmsi.identity })
    }

    /// An inactive source's target stays 0.
    pub fn write_target(&mut self, number: u32, value: u32) {
        let written = Target::written(value, self.way, self.name);
        if let Some(active) = self.active_mut(number) {
            active.target = written;
        }
    }

    /// The bits of sources 32 k to 32 k + 31 that a test of active sources picks.
    pub fn bits(&self, k: u32, test: impl Fn(u32, &Active) -> bool) -> u32 {
        let chosen = self.active_sources().filter(|(i, active)| i / 32 == k && test(*i, active));
        chosen.fold(0, |word, (i, _)| word | 1 << (i % 32))
    }

    /// The message of a source in message mode: from the machine domain to file 0; from the child with guest
    /// index 0 to file 1, the supervisor's, and else to guest files 1 to 3, which are files 2 to 4.
    fn message(&self, target: Target) -> Option<Message> {
        let Target::Message { hart, guest, identity } = target else { return None };
        let file = if self.name == Name::Machine { 0 } else { 1 + guest };
        Some(Message { hart, file, identity })
    }

    /// With DM and IE at 1, a message for every active source that is pending and enabled, by ascending
    /// number; none of them is pending afterwards.
    pub fn send(&mut self) -> Vec<Message> {
        let mut sent = Vec::new();
        if self.way == Way::Direct || !self.ie {
            return sent;
        }
        for number in 1..=SOURCES {
            let Some(active) = self.source(number).active().copied() else { continue };
            if active.pending && active.enabled {
                sent.extend(self.message(active.target));
                *self.source_mut(number) = Source::Active(Active { pending: false, ..active });
            }
        }
        sent
    }
}
