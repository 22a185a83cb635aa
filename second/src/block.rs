//! A board as a block of 650 words, and back (docs/LAYOUT.md).

use crate::board::Board;
use crate::delivery::Structure;
use crate::domain::{Domain, Genmsi, SOURCES};
use crate::file::{Delivery, MessageFile};
use crate::rules::{self, Rule};
use crate::source::{Active, Mode, Name, Source, Target, Way};
use crate::wired::Wired;
use std::collections::BTreeSet;

pub const STATE_WORDS: usize = 650;
pub const LOG_WORDS: usize = 63;

/// Where the parts of a block start.
pub const FILE_WORDS: usize = 18;
pub const FILES: usize = 20;
pub const WIRES: usize = 360;
pub const MACHINE: usize = 362;
pub const SUPERVISOR: usize = 506;

/// Where the parts of a domain start.
pub const GENMSI: usize = 64;
pub const TARGET: usize = 64;
pub const PENDING: usize = 128;
pub const ENABLE: usize = 130;
pub const STRUCTURES: usize = 132;

fn put_bits(words: &mut [u32], numbers: impl Iterator<Item = u32>) {
    words.fill(0);
    for number in numbers {
        words[number as usize / 32] |= 1 << (number % 32);
    }
}

pub fn has_bit(words: &[u32], number: u32) -> bool {
    words[number as usize / 32] >> (number % 32) & 1 == 1
}

fn put_file(words: &mut [u32], file: &MessageFile) {
    words[0] = file.delivery.number() as u32;
    words[1] = file.threshold as u32;
    put_bits(&mut words[2..10], file.pending.iter().copied());
    put_bits(&mut words[10..18], file.enabled.iter().copied());
}

fn put_domain(words: &mut [u32], domain: &Domain) {
    words[0] = domain.domaincfg() & 0x0000_0104;
    for number in 1..=SOURCES {
        let source = domain.source(number);
        words[number as usize] = source.configuration();
        words[TARGET + number as usize] = source.active().map_or(0, |active| active.target.number());
    }
    words[GENMSI] = domain.genmsi.number();
    let chosen =
        |test: fn(&Active) -> bool| domain.active_sources().filter(move |(_, a)| test(a)).map(|(i, _)| i);
    put_bits(&mut words[PENDING..PENDING + 2], chosen(|active| active.pending));
    put_bits(&mut words[ENABLE..ENABLE + 2], chosen(|active| active.enabled));
    for (hart, structure) in domain.structures.iter().enumerate() {
        let at = STRUCTURES + 3 * hart;
        words[at] = structure.idelivery.into();
        words[at + 1] = structure.iforce.into();
        words[at + 2] = structure.ithreshold;
    }
}

/// Writes the block of a board.
pub fn encode(board: &Board, words: &mut [u32]) {
    for (number, file) in board.files.iter().flatten().enumerate() {
        put_file(&mut words[number * FILE_WORDS..(number + 1) * FILE_WORDS], file);
    }
    put_bits(&mut words[WIRES..WIRES + 2], board.wired.high.iter().copied());
    put_domain(&mut words[MACHINE..SUPERVISOR], &board.wired.machine);
    put_domain(&mut words[SUPERVISOR..STATE_WORDS], &board.wired.supervisor);
}

fn set_of(words: &[u32]) -> BTreeSet<u32> {
    (0..32 * words.len() as u32).filter(|number| has_bit(words, *number)).collect()
}

fn file_of(words: &[u32], guest: bool) -> Option<MessageFile> {
    Some(MessageFile {
        guest,
        delivery: Delivery::named(words[0].into(), guest)?,
        threshold: words[1].into(),
        pending: set_of(&words[2..10]),
        enabled: set_of(&words[10..18]),
    })
}

fn source_of(words: &[u32], number: u32, way: Way, name: Name) -> Source {
    let configuration = words[number as usize];
    if configuration == 0x400 {
        return Source::Delegated;
    }
    let Some(mode) = Mode::named(configuration) else { return Source::Inactive };
    Source::Active(Active {
        mode,
        pending: has_bit(&words[PENDING..PENDING + 2], number),
        enabled: has_bit(&words[ENABLE..ENABLE + 2], number),
        target: Target::written(words[TARGET + number as usize], way, name),
    })
}

fn domain_of(words: &[u32], name: Name) -> Domain {
    let way = if words[0] >> 2 & 1 == 1 { Way::Messages } else { Way::Direct };
    let structure = |hart: usize| {
        let at = STRUCTURES + 3 * hart;
        Structure { idelivery: words[at] == 1, iforce: words[at + 1] == 1, ithreshold: words[at + 2] }
    };
    Domain {
        name,
        ie: words[0] >> 8 & 1 == 1,
        way,
        sources: (1..=SOURCES).map(|number| source_of(words, number, way, name)).collect(),
        genmsi: Genmsi { hart: words[GENMSI] >> 18, identity: words[GENMSI] & 0xFF },
        structures: [structure(0), structure(1), structure(2), structure(3)],
    }
}

/// The board of a block, or the first state rule that the block breaks.
pub fn decode(words: &[u32]) -> Result<Board, Rule> {
    if let Some(rule) = rules::first_broken(words) {
        return Err(rule);
    }
    let file = |hart: usize, number: usize| {
        let at = (5 * hart + number) * FILE_WORDS;
        file_of(&words[at..at + FILE_WORDS], number > 1).expect("the rules bound a delivery")
    };
    let files = (0..4).map(|hart| (0..5).map(|number| file(hart, number)).collect()).collect();
    let wired = Wired {
        high: set_of(&words[WIRES..WIRES + 2]),
        machine: domain_of(&words[MACHINE..SUPERVISOR], Name::Machine),
        supervisor: domain_of(&words[SUPERVISOR..STATE_WORDS], Name::Supervisor),
    };
    Ok(Board { files, wired })
}
