//! The move of a station from one guest file to another: 89 accesses (01, "The move, with its premises";
//! the standard, 6.1.2).

use crate::board::Board;
use crate::file::{Kind, Register};
use crate::source::{Target, Way};

/// A guest file: its hart, and its number among the hart's five files.
#[derive(Clone, Copy, PartialEq, Eq, Debug)]
pub struct Place {
    pub hart: u64,
    pub file: u64,
}

impl Place {
    pub fn is_guest_file(self) -> bool {
        self.hart <= 3 && (2..=4).contains(&self.file)
    }

    /// Whether a child target names this file: guest index 1 is file 2.
    pub fn is_named_by(self, target: Target) -> bool {
        let Target::Message { hart, guest, .. } = target else { return false };
        u64::from(hart) == self.hart && u64::from(guest) + 1 == self.file
    }
}

/// Delivery, threshold, four pending words, four enable words.
pub type Saved = [u64; 10];

/// An access is barred if its number is none of 1 to 89, if old or new is no guest file or both are one, and
/// while the child delivers directly.
pub fn barred(board: &Board, old: Place, new: Place, access: u64) -> bool {
    let two_guest_files = old.is_guest_file() && new.is_guest_file() && old != new;
    !(1..=89).contains(&access) || !two_guest_files || board.wired.supervisor.way == Way::Direct
}

/// Step 3 for one source. A target that names another file than old stays.
fn retarget(board: &mut Board, source: u32, old: Place, new: Place) {
    let Some(active) = board.wired.supervisor.active_mut(source) else { return };
    if let Target::Message { identity, .. } = active.target {
        if old.is_named_by(active.target) {
            active.target = Target::Message { hart: new.hart as u32, guest: new.file as u32 - 1, identity };
        }
    }
}

/// One access that is not barred. The steps have 3, 5, 63, 8, 8 and 2, and take words from the lowest up.
pub fn access(board: &mut Board, old: Place, new: Place, number: u64, saved: &mut Saved) {
    let word = |first: u64| (number - first) as u32;
    let place = |first: u64, base: usize| (number - first) as usize + base;
    match number {
        // Step 1: delivery and threshold of old are kept, and old falls silent.
        1 => saved[0] = board.file(old).get(Register::Delivery),
        2 => saved[1] = board.file(old).get(Register::Threshold),
        3 => board.file(old).put(Register::Delivery, 0),
        // Step 2: new falls silent, and nothing stays pending in it.
        4 => board.file(new).put(Register::Delivery, 0),
        5..=8 => board.file(new).put(Register::Pending(word(5)), 0),
        // Step 3: the child's targets are turned from old to new and keep their identities.
        9..=71 => retarget(board, word(8), old, new),
        // Step 4: the words of old are kept, pending ones first.
        72..=75 => saved[place(72, 2)] = board.file(old).get(Register::Pending(word(72))),
        76..=79 => saved[place(76, 6)] = board.file(old).get(Register::Enable(word(76))),
        // Step 5: kept pending bits join those of new; kept enable words take the place of its own.
        80..=83 => _ = board.file(new).access(Kind::Set, Register::Pending(word(80)), saved[place(80, 2)]),
        84..=87 => _ = board.file(new).access(Kind::Write, Register::Enable(word(84)), saved[place(84, 6)]),
        // Step 6: new gets the kept threshold, and last the kept delivery.
        88 => board.file(new).put(Register::Threshold, saved[1]),
        _ => board.file(new).put(Register::Delivery, saved[0]),
    }
}
