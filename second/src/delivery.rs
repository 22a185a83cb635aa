//! The delivery structures of a domain (01, "Direct delivery and signals"; the standard, 4.8).

use crate::domain::Domain;
use crate::source::{Active, Target, Way};

/// The stored numbers of one hart's structure.
#[derive(Clone, Copy, PartialEq, Eq, Debug, Default)]
pub struct Structure {
    pub idelivery: bool,
    pub iforce: bool,
    pub ithreshold: u32,
}

/// A named word of a structure.
#[derive(Clone, Copy, PartialEq, Eq, Debug)]
pub enum Word {
    Idelivery,
    Iforce,
    Ithreshold,
    Topi,
    Claimi,
}

/// 0 or 1 is stored; with any other value the old one stays.
fn zero_or_one(value: u32, old: bool) -> bool {
    match value {
        0 => false,
        1 => true,
        _ => old,
    }
}

impl Domain {
    /// The priority of a source that is pending and enabled for the hart and that its threshold lets through.
    fn candidate(&self, hart: usize, active: &Active) -> Option<u32> {
        let Target::Direct { hart: to, priority } = active.target else { return None };
        let limit = self.structures[hart].ithreshold;
        let passes = limit == 0 || priority < limit;
        (active.pending && active.enabled && to as usize == hart && passes).then_some(priority)
    }

    /// Of the candidates the one with the smallest priority, by ascending source where several have it: the
    /// source and its priority. None in message mode.
    pub fn top(&self, hart: usize) -> Option<(u32, u32)> {
        let mut best: Option<(u32, u32)> = None;
        for (source, active) in self.active_sources() {
            let Some(priority) = self.candidate(hart, active) else { continue };
            if best.is_none_or(|(_, least)| priority < least) {
                best = Some((source, priority));
            }
        }
        best
    }

    /// The source in the upper half, its priority in the lower; 0 if there is no top.
    pub fn topi(&self, hart: usize) -> u32 {
        self.top(hart).map_or(0, |(source, priority)| source * 65536 + priority)
    }

    /// A read of claimi gives what topi reads. The source there loses its pending bit where 4.7 lets it; with
    /// no source there iforce falls.
    fn claimi(&mut self, hart: usize) -> u32 {
        let answer = self.topi(hart);
        let way = self.way;
        match self.top(hart) {
            Some((source, _)) => {
                if let Some(active) = self.source_mut(source).active_mut() {
                    active.clear_pending_if_possible(way);
                }
            }
            None => self.structures[hart].iforce = false,
        }
        answer
    }

    /// While a domain sends messages nothing of its structures can be read or written; what is stored stays.
    pub fn structure_read(&mut self, hart: usize, word: Word) -> u32 {
        if self.way == Way::Messages {
            return 0;
        }
        let structure = self.structures[hart];
        match word {
            Word::Idelivery => u32::from(structure.idelivery),
            Word::Iforce => u32::from(structure.iforce),
            Word::Ithreshold => structure.ithreshold,
            Word::Topi => self.topi(hart),
            Word::Claimi => self.claimi(hart),
        }
    }

    pub fn structure_write(&mut self, hart: usize, word: Word, value: u32) {
        if self.way == Way::Messages {
            return;
        }
        let structure = &mut self.structures[hart];
        match word {
            Word::Idelivery => structure.idelivery = zero_or_one(value, structure.idelivery),
            Word::Iforce => structure.iforce = zero_or_one(value, structure.iforce),
            // Bits 7:0.
            Word::Ithreshold => structure.ithreshold = value & 0xFF,
            // Neither can be written (4.8.1).
            Word::Topi | Word::Claimi => {}
        }
    }

    /// The signal to a hart: with direct delivery, IE and idelivery it is high if iforce or topi is not 0.
    pub fn signals(&self, hart: usize) -> bool {
        let structure = &self.structures[hart];
        let direct = self.way == Way::Direct;
        direct && self.ie && structure.idelivery && (structure.iforce || self.topi(hart) != 0)
    }
}
