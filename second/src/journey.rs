//! Whole moves: the 89 accesses with wire changes and page writes between any of them, held against the same
//! events without the move (01, "The move, with its premises").

use crate::block::{self, STATE_WORDS};
use crate::board::Board;
use crate::calls::{Call, Item};
use crate::compare::Difference;
use crate::domain::Domain;
use crate::draw;
use crate::movement::{Place, Saved};
use crate::random::Random;
use crate::sound;
use crate::source::{Source, Target, Way};
use crate::taste::Taste;

#[derive(Clone, Copy, Debug)]
pub struct Journey {
    pub old: Place,
    pub new: Place,
}

fn target_of(place: Place, identity: u32) -> Target {
    Target::Message { hart: place.hart as u32, guest: place.file as u32 - 1, identity }
}

fn places(random: &mut Random, taste: &Taste) -> Journey {
    loop {
        let (hart, file) = taste.guest_file(random);
        let old = Place { hart, file };
        let (hart, file) = taste.guest_file(random);
        let new = Place { hart, file };
        if old != new {
            return Journey { old, new };
        }
        if random.percent(20) {
            return Journey { old, new: Place { hart: (hart + 1) % 4, file } };
        }
    }
}

/// A board on which a move may start: the child sends messages, and no target names new. Many name old.
fn start(random: &mut Random, taste: &Taste, journey: &Journey) -> Board {
    let mut board = sound::board(random, taste);
    while board.wired.supervisor.way == Way::Direct {
        board = sound::board(random, taste);
    }
    for source in &mut board.wired.supervisor.sources {
        let Source::Active(active) = source else { continue };
        if journey.new.is_named_by(active.target) || random.percent(60) {
            active.target = target_of(journey.old, taste.identity(random) as u32 & 0xFF);
        }
    }
    board
}

/// An event that may fall after so many accesses: a wire change, or a page write to a page that may be
/// written now.
fn event(random: &mut Random, taste: &Taste, journey: &Journey, made: u64) -> Call {
    if random.percent(45) {
        return draw::wire(random, taste);
    }
    let place = match random.below(10) {
        0..=4 if made < 72 => journey.old,
        0..=8 if made >= 8 => journey.new,
        0..=8 if made < 72 => journey.old,
        _ => return other_page(random, taste, journey),
    };
    let (address, value) = draw::page_words(random, taste);
    Call::PageWrite { hart: place.hart, file: place.file, address, value }
}

fn other_page(random: &mut Random, taste: &Taste, journey: &Journey) -> Call {
    loop {
        let call = draw::page_write(random, taste);
        if !writes_to(&call, journey.old) && !writes_to(&call, journey.new) {
            return call;
        }
    }
}

fn writes_to(call: &Call, place: Place) -> bool {
    matches!(*call, Call::PageWrite { hart, file, .. } if Place { hart, file } == place)
}

fn access(journey: &Journey, access: u64) -> Call {
    let Journey { old, new } = *journey;
    Call::Move { old_hart: old.hart, old_file: old.file, new_hart: new.hart, new_file: new.file, access }
}

/// A whole move with its start and its events.
pub fn draw(random: &mut Random, taste: &Taste) -> (Vec<Item>, Journey) {
    let journey = places(random, taste);
    let mut items = sound::pokes(&start(random, taste, &journey));
    items.extend((0..10).map(|index| Item::Saved { index, value: random.number() }));
    let busy = random.pick(&[0, 20, 60]);
    for made in 0..=89 {
        if made > 0 {
            items.push(Item::Call(access(&journey, made)));
        }
        while random.percent(busy) {
            items.push(Item::Call(event(random, taste, &journey, made)));
        }
    }
    (items, journey)
}

/// The board before the first call.
fn board_before(items: &[Item]) -> Option<Board> {
    let mut words = vec![0; STATE_WORDS];
    for item in items {
        if let Item::Poke { index, value } = *item {
            words[index] = value;
        }
    }
    block::decode(&words).ok()
}

/// Before the first call no target of an active source names new, and the child sends messages.
fn start_fits(board: &Board, journey: &Journey) -> bool {
    let child = &board.wired.supervisor;
    child.way == Way::Messages && child.active_sources().all(|(_, a)| !journey.new.is_named_by(a.target))
}

/// All 89 accesses are there, by ascending number, and besides them only wires and page writes; a page write
/// to new comes after access 8, and one to old before access 72.
fn calls_fit(items: &[Item], journey: &Journey) -> bool {
    let mut made = 0;
    for item in items {
        let Item::Call(call) = item else { continue };
        let fits = match call {
            Call::Wire { .. } => true,
            Call::PageWrite { .. } if writes_to(call, journey.new) => made >= 8,
            Call::PageWrite { .. } if writes_to(call, journey.old) => made < 72,
            Call::PageWrite { .. } => true,
            Call::Move { .. } => {
                made += 1;
                *call == access(journey, made)
            }
            _ => false,
        };
        if !fits {
            return false;
        }
    }
    made == 89
}

pub fn premises_hold(items: &[Item], journey: &Journey) -> bool {
    board_before(items).is_some_and(|board| start_fits(&board, journey)) && calls_fit(items, journey)
}

/// The run without the move: the same events, but that a page write to new is one to old.
fn compared_run(items: &[Item], journey: &Journey) -> Option<Board> {
    let mut board = board_before(items)?;
    for item in items {
        let Item::Call(mut call) = *item else { continue };
        if writes_to(&call, journey.new) {
            if let Call::PageWrite { hart, file, .. } = &mut call {
                (*hart, *file) = (journey.old.hart, journey.old.file);
            }
        }
        if !matches!(call, Call::Move { .. }) && board.refusal(&call).is_none() {
            board.perform(&call, &mut Saved::default());
        }
    }
    Some(board)
}

/// The pending and enable bits of a domain.
fn bits(domain: &Domain) -> Vec<(u32, bool, bool)> {
    domain.active_sources().map(|(i, active)| (i, active.pending, active.enabled)).collect()
}

/// What the move promises, on the block that the library left.
pub fn check(items: &[Item], journey: &Journey, state: &[u32]) -> Result<(), Difference> {
    let (Ok(mut after), Some(mut compared)) =
        (block::decode(&state[..STATE_WORDS]), compared_run(items, journey))
    else {
        return Err(Difference { lines: vec!["the move left a broken block".into()] });
    };
    let mut lines = Vec::new();
    if after.file(journey.new) != compared.file(journey.old) {
        lines.push(format!("the new file is {:?}", after.file(journey.new)));
        lines.push(format!("the old file of the run without the move is {:?}", compared.file(journey.old)));
    }
    for place in (0..20).map(|number| Place { hart: number / 5, file: number % 5 }) {
        if place != journey.old && place != journey.new && after.file(place) != compared.file(place) {
            lines.push(format!("file {} of hart {} is another", place.file, place.hart));
        }
    }
    if after.wired.high != compared.wired.high {
        lines.push("the wires are others".into());
    }
    if bits(&after.wired.machine) != bits(&compared.wired.machine) {
        lines.push("pending or enable bits of the machine domain are others".into());
    }
    if bits(&after.wired.supervisor) != bits(&compared.wired.supervisor) {
        lines.push("pending or enable bits of the child are others".into());
    }
    if lines.is_empty() {
        Ok(())
    } else {
        Err(Difference { lines })
    }
}
