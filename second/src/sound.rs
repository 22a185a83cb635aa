//! Random boards that keep the state rules, by construction.

use std::collections::BTreeSet;

use crate::block::{self, STATE_WORDS};
use crate::board::Board;
use crate::calls::Item;
use crate::delivery::Structure;
use crate::domain::{Domain, Genmsi, SOURCES};
use crate::file::{Delivery, MessageFile};
use crate::random::Random;
use crate::source::{Active, Mode, Name, Source, Target, Way};
use crate::taste::Taste;
use crate::wired::Wired;

const MODES: [Mode; 5] = [Mode::Detached, Mode::Edge1, Mode::Edge0, Mode::Level1, Mode::Level0];

fn identities(random: &mut Random, taste: &Taste) -> BTreeSet<u32> {
    let numbers: Vec<u64> = match random.below(30) {
        0 => (1..=255).collect(),
        1..=9 => vec![],
        _ => (0..random.below(8)).map(|_| taste.identity(random)).collect(),
    };
    numbers.into_iter().filter(|i| (1..=255).contains(i)).map(|i| i as u32).collect()
}

fn file(random: &mut Random, taste: &Taste, guest: bool) -> MessageFile {
    let deliveries: &[Delivery] =
        if guest { &[Delivery::Off, Delivery::On] } else { &[Delivery::Off, Delivery::On, Delivery::Wired] };
    MessageFile {
        guest,
        delivery: random.pick(deliveries),
        threshold: if random.percent(50) { 0 } else { taste.threshold(random) % 256 },
        pending: identities(random, taste),
        enabled: identities(random, taste),
    }
}

fn target(random: &mut Random, taste: &Taste, way: Way, name: Name) -> Target {
    let value = random.number() as u32 & 0xF_FF00 | taste.identity(random) as u32 & 0xFF;
    Target::written(value, way, name)
}

/// An active source whose pending bit its wire allows, and that has nothing to send.
fn active(random: &mut Random, taste: &Taste, domain: &Domain, wire: bool) -> Active {
    let mode = random.pick(&MODES);
    let target = target(random, taste, domain.way, domain.name);
    let enabled = random.percent(70);
    let mut active = Active { mode, pending: random.percent(40), enabled, target };
    active.follow_level(domain.way, wire);
    if domain.way == Way::Messages && domain.ie && active.pending {
        active.enabled = false;
    }
    active
}

/// A domain with no sources yet.
fn empty_domain(random: &mut Random, taste: &Taste, name: Name) -> Domain {
    let mut domain = Domain::at_reset(name);
    domain.ie = random.percent(75);
    let messages = random.percent(if taste.messages { 85 } else { 25 });
    domain.way = if messages { Way::Messages } else { Way::Direct };
    if domain.way == Way::Messages {
        domain.genmsi =
            Genmsi { hart: random.below(4) as u32, identity: taste.identity(random) as u32 & 0xFF };
    }
    for structure in &mut domain.structures {
        let ithreshold = if random.percent(60) { 0 } else { taste.threshold(random) as u32 & 0xFF };
        *structure = Structure { idelivery: random.percent(70), iforce: random.percent(30), ithreshold };
    }
    domain
}

/// A board that keeps the rules: mostly with the liked sources active and some more, now and then with all.
pub fn board(random: &mut Random, taste: &Taste) -> Board {
    if random.percent(4) {
        return full_board(random, taste);
    }
    let files = (0..4).map(|_| (0..5).map(|f| file(random, taste, f > 1)).collect()).collect();
    let high: BTreeSet<u32> = (1..=SOURCES).filter(|_| random.percent(50)).collect();
    let machine = empty_domain(random, taste, Name::Machine);
    let supervisor = empty_domain(random, taste, Name::Supervisor);
    let mut wired = Wired { high, machine, supervisor };
    let busy = random.percent(30);
    for number in 1..=SOURCES {
        let used = busy || taste.sources.contains(&number.into()) || random.percent(10);
        if !used || random.percent(10) {
            continue;
        }
        let wire = wired.wire(number);
        if random.percent(40) {
            *wired.machine.source_mut(number) = Source::Active(active(random, taste, &wired.machine, wire));
            continue;
        }
        *wired.machine.source_mut(number) = Source::Delegated;
        if random.percent(85) {
            *wired.supervisor.source_mut(number) =
                Source::Active(active(random, taste, &wired.supervisor, wire));
        }
    }
    Board { files, wired }
}

/// A board on which one domain has all 63 sources, each pending and enabled, and sends them all once IE is
/// set.
pub fn full_board(random: &mut Random, taste: &Taste) -> Board {
    let mut board = Board::at_reset();
    let name = random.pick(&[Name::Machine, Name::Supervisor]);
    if name == Name::Supervisor {
        board.wired.machine.sources.fill(Source::Delegated);
    }
    let domain = board.wired.domain_mut(name);
    domain.way = Way::Messages;
    for number in 1..=SOURCES {
        let mode = random.pick(&[Mode::Detached, Mode::Edge1, Mode::Edge0, Mode::Level0]);
        let target = target(random, taste, Way::Messages, name);
        *domain.source_mut(number) = Source::Active(Active { mode, pending: true, enabled: true, target });
    }
    board
}

/// The pokes that make a board from a block of zeros.
pub fn pokes(board: &Board) -> Vec<Item> {
    let mut words = vec![0; STATE_WORDS];
    block::encode(board, &mut words);
    let held = words.into_iter().enumerate().filter(|(_, value)| *value != 0);
    held.map(|(index, value)| Item::Poke { index, value }).collect()
}
