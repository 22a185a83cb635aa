//! The state rules, each a function over the 650 words (01, "State rules"; docs/LAYOUT.md for the places).

use crate::block::{
    has_bit, ENABLE, FILES, FILE_WORDS, GENMSI, MACHINE, PENDING, STRUCTURES, SUPERVISOR, TARGET, WIRES,
};
use crate::domain::SOURCES;
use crate::source::{Mode, Name};

pub type Rule = &'static str;

/// The words of a block by their parts.
struct View<'a> {
    words: &'a [u32],
}

impl<'a> View<'a> {
    fn file(&self, number: usize) -> &'a [u32] {
        &self.words[number * FILE_WORDS..(number + 1) * FILE_WORDS]
    }

    fn wire(&self, number: u32) -> bool {
        has_bit(&self.words[WIRES..WIRES + 2], number)
    }

    fn domain(&self, name: Name) -> DomainView<'a> {
        let (from, to) = match name {
            Name::Machine => (MACHINE, SUPERVISOR),
            Name::Supervisor => (SUPERVISOR, self.words.len()),
        };
        DomainView { words: &self.words[from..to], name }
    }

    fn files(&self, test: impl Fn(usize, &[u32]) -> bool) -> bool {
        (0..FILES).all(|number| test(number, self.file(number)))
    }

    fn domains(&self, test: impl Fn(&DomainView) -> bool) -> bool {
        test(&self.domain(Name::Machine)) && test(&self.domain(Name::Supervisor))
    }

    /// A test of every source of both domains.
    fn sources(&self, test: impl Fn(&DomainView, u32) -> bool) -> bool {
        self.domains(|domain| (1..=SOURCES).all(|number| test(domain, number)))
    }
}

struct DomainView<'a> {
    words: &'a [u32],
    name: Name,
}

impl DomainView<'_> {
    fn messages(&self) -> bool {
        self.words[0] >> 2 & 1 == 1
    }

    fn ie(&self) -> bool {
        self.words[0] >> 8 & 1 == 1
    }

    fn configuration(&self, number: u32) -> u32 {
        self.words[number as usize]
    }

    fn mode(&self, number: u32) -> Option<Mode> {
        Mode::named(self.configuration(number))
    }

    fn target(&self, number: u32) -> u32 {
        self.words[TARGET + number as usize]
    }

    fn pending(&self, number: u32) -> bool {
        has_bit(&self.words[PENDING..PENDING + 2], number)
    }

    fn enabled(&self, number: u32) -> bool {
        has_bit(&self.words[ENABLE..ENABLE + 2], number)
    }

    fn structures(&self, offset: usize, limit: u32) -> bool {
        (0..4).all(|hart| self.words[STRUCTURES + 3 * hart + offset] <= limit)
    }
}

const HART: u32 = 0xC_0000;
const LOW: u32 = 0xFF;
const GUEST: u32 = 0x3000;

fn only(bits: u32, word: u32) -> bool {
    word & !bits == 0
}

/// A target of an active source has no bits but those that a write keeps.
fn target_fits(domain: &DomainView, number: u32) -> bool {
    let guest = if domain.name == Name::Supervisor && domain.messages() { GUEST } else { 0 };
    domain.mode(number).is_none() || only(HART | guest | LOW, domain.target(number))
}

/// In direct mode no active source has priority 0, because no write stores it.
fn priority_fits(domain: &DomainView, number: u32) -> bool {
    domain.mode(number).is_none() || domain.messages() || domain.target(number) & LOW != 0
}

fn configuration_fits(domain: &DomainView, number: u32) -> bool {
    match domain.configuration(number) {
        0 => true,
        0x400 => domain.name == Name::Machine,
        other => Mode::named(other).is_some(),
    }
}

fn delivery_fits(number: usize, delivery: u32) -> bool {
    delivery <= 1 || delivery == 0x4000_0000 && number % 5 < 2
}

/// A level source is not pending while its rectified value is low.
fn level_allows(view: &View, domain: &DomainView, number: u32) -> bool {
    match domain.mode(number) {
        Some(mode) if mode.is_level() => !domain.pending(number) || mode.rectified(view.wire(number)),
        _ => true,
    }
}

/// In direct mode a level source is pending while its rectified value is high.
fn level_demands(view: &View, domain: &DomainView, number: u32) -> bool {
    match domain.mode(number) {
        Some(mode) if mode.is_level() && !domain.messages() => {
            domain.pending(number) || !mode.rectified(view.wire(number))
        }
        _ => true,
    }
}

type Test = fn(&View) -> bool;

/// The rules by name. A block keeps them if every test holds.
const RULES: [(Rule, Test); 23] = [
    ("a delivery is 0, 1 or, in files 0 and 1, 0x40000000", |v| v.files(|n, f| delivery_fits(n, f[0]))),
    ("a threshold has 8 bits", |v| v.files(|_, f| f[1] <= 255)),
    ("identity 0 is not pending", |v| v.files(|_, f| f[2] & 1 == 0)),
    ("identity 0 is not enabled", |v| v.files(|_, f| f[10] & 1 == 0)),
    ("there is no wire 0", |v| !v.wire(0)),
    ("domaincfg has IE and DM alone", |v| v.domains(|d| only(0x104, d.words[0]))),
    ("sourcecfg is 0, a mode or a delegation", |v| v.sources(configuration_fits)),
    ("child sourcecfg is 0 where undelegated", |v| {
        let (machine, child) = (v.domain(Name::Machine), v.domain(Name::Supervisor));
        (1..=SOURCES).all(|i| child.configuration(i) == 0 || machine.configuration(i) == 0x400)
    }),
    ("genmsi has hart and identity alone", |v| v.domains(|d| only(HART | LOW, d.words[GENMSI]))),
    ("genmsi is 0 in direct mode", |v| v.domains(|d| d.messages() || d.words[GENMSI] == 0)),
    ("an inactive source has target 0", |v| v.sources(|d, i| d.mode(i).is_some() || d.target(i) == 0)),
    ("a target has hart, guest and identity or priority alone", |v| v.sources(target_fits)),
    ("a priority is not 0", |v| v.sources(priority_fits)),
    ("source 0 is not pending", |v| v.domains(|d| !d.pending(0))),
    ("source 0 is not enabled", |v| v.domains(|d| !d.enabled(0))),
    ("an inactive source is not pending", |v| v.sources(|d, i| d.mode(i).is_some() || !d.pending(i))),
    ("an inactive source is not enabled", |v| v.sources(|d, i| d.mode(i).is_some() || !d.enabled(i))),
    ("a low level source is not pending", |v| v.sources(|d, i| level_allows(v, d, i))),
    ("a high level source is pending in direct mode", |v| v.sources(|d, i| level_demands(v, d, i))),
    ("what is to be sent has been sent", |v| {
        v.sources(|d, i| !(d.messages() && d.ie() && d.pending(i) && d.enabled(i)))
    }),
    ("idelivery is 0 or 1", |v| v.domains(|d| d.structures(0, 1))),
    ("iforce is 0 or 1", |v| v.domains(|d| d.structures(1, 1))),
    ("ithreshold has 8 bits", |v| v.domains(|d| d.structures(2, 255))),
];

/// How many rules there are, and their names.
pub fn names() -> impl Iterator<Item = Rule> {
    RULES.iter().map(|(name, _)| *name)
}

/// The first rule that a block of 650 words breaks.
pub fn first_broken(words: &[u32]) -> Option<Rule> {
    let view = View { words };
    RULES.iter().find(|(_, keeps)| !keeps(&view)).map(|(name, _)| *name)
}
