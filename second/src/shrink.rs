//! The shortest failing sequence that dropping items finds.

use crate::block::{self, STATE_WORDS};
use crate::board::Board;
use crate::calls::Item;
use crate::domain::SOURCES;
use crate::file::{Delivery, MessageFile};
use crate::sound;
use crate::source::Source;

fn without(items: &[Item], from: usize, count: usize) -> Vec<Item> {
    let to = (from + count).min(items.len());
    items[..from].iter().chain(&items[to..]).copied().collect()
}

/// Drops runs of so many items where the rest still fails.
fn pass(items: Vec<Item>, size: usize, fails: &dyn Fn(&[Item]) -> bool) -> Vec<Item> {
    let mut items = items;
    let mut from = 0;
    while from < items.len() {
        let shorter = without(&items, from, size);
        if fails(&shorter) {
            items = shorter;
        } else {
            from += size;
        }
    }
    items
}

/// The pokes at the start, and the board that they make if it keeps the rules.
fn start_of(items: &[Item]) -> Option<(usize, Board)> {
    let mut words = vec![0; STATE_WORDS];
    let mut count = 0;
    while let Some(Item::Poke { index, value }) = items.get(count) {
        words[*index] = *value;
        count += 1;
    }
    block::decode(&words).ok().map(|board| (count, board))
}

/// The board without one source and its wire.
fn without_source(mut board: Board, number: u32) -> Board {
    *board.wired.machine.source_mut(number) = Source::Inactive;
    *board.wired.supervisor.source_mut(number) = Source::Inactive;
    board.wired.high.remove(&number);
    board
}

/// The board with one file emptied.
fn without_file(mut board: Board, number: usize) -> Board {
    let file = &mut board.files[number / 5][number % 5];
    *file = MessageFile { delivery: Delivery::Off, ..MessageFile::at_reset(file.guest) };
    board
}

/// The words of a source belong together, so that single pokes cannot be dropped: takes whole sources and
/// files out of the start where the rest still fails.
fn simplify_start(items: Vec<Item>, fails: &dyn Fn(&[Item]) -> bool) -> Vec<Item> {
    let mut items = items;
    for part in 0..SOURCES as usize + 20 {
        let Some((count, board)) = start_of(&items) else { return items };
        let board =
            if part < 20 { without_file(board, part) } else { without_source(board, part as u32 - 19) };
        let mut simpler = sound::pokes(&board);
        simpler.extend_from_slice(&items[count..]);
        if simpler.len() < items.len() && fails(&simpler) {
            items = simpler;
        }
    }
    items
}

/// Drops by halves down to one at a time, and again one at a time while that helps.
pub fn shrink(items: Vec<Item>, fails: &dyn Fn(&[Item]) -> bool) -> Vec<Item> {
    let mut items = items;
    let mut size = items.len() / 2;
    while size > 0 {
        items = pass(items, size, fails);
        size /= 2;
    }
    items = simplify_start(items, fails);
    loop {
        let before = items.len();
        items = pass(items, 1, fails);
        if items.len() == before {
            return items;
        }
    }
}
