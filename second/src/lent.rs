//! What the calls are lent: both blocks, their lengths, and the record of a move; and how each side uses it.

use crate::block::{self, LOG_WORDS, STATE_WORDS};
use crate::board::Board;
use crate::calls::{Call, Item};
use crate::face;
use crate::movement::Saved;
use crate::rules::Rule;

/// The buffers are longer than the blocks, so that wrong lengths can be lent too.
pub const STATE_BUFFER: usize = STATE_WORDS + 10;
pub const LOG_BUFFER: usize = LOG_WORDS + 7;

#[derive(Clone, Copy, PartialEq, Eq, Debug)]
pub struct Answer {
    pub refusal: u32,
    pub value: u64,
    pub count: u32,
}

#[derive(Clone, PartialEq, Eq, Debug)]
pub struct Lent {
    pub state: Vec<u32>,
    pub log: Vec<u32>,
    pub saved: Saved,
    pub state_len: usize,
    pub log_len: usize,
}

impl Lent {
    pub fn new() -> Lent {
        Lent {
            state: vec![0; STATE_BUFFER],
            log: vec![0; LOG_BUFFER],
            saved: Saved::default(),
            state_len: STATE_WORDS,
            log_len: LOG_WORDS,
        }
    }

    /// Makes what is no call; a call is handed back.
    fn prepare(&mut self, item: &Item) -> Option<Call> {
        match *item {
            Item::Call(call) => return Some(call),
            Item::Poke { index, value } => self.state[index] = value,
            Item::Lengths { state, log } => (self.state_len, self.log_len) = (state, log),
            Item::Saved { index, value } => self.saved[index] = value,
            Item::Mark { index, value } => self.log[index] = value,
        }
        None
    }
}

/// The library's side.
pub struct Library {
    pub lent: Lent,
}

impl Library {
    pub fn new() -> Library {
        Library { lent: Lent::new() }
    }

    pub fn apply(&mut self, item: &Item) -> Option<Answer> {
        let call = self.lent.prepare(item)?;
        Some(face::call(&call, &mut self.lent))
    }
}

/// The model's side. Its board is what its block says.
pub struct Model {
    pub lent: Lent,
    board: Option<Result<Board, Rule>>,
}

impl Model {
    pub fn new() -> Model {
        Model { lent: Lent::new(), board: None }
    }

    /// The board of the block, or the rule that the block breaks.
    pub fn board(&mut self) -> &mut Result<Board, Rule> {
        let words = &self.lent.state[..STATE_WORDS];
        self.board.get_or_insert_with(|| block::decode(words))
    }

    pub fn apply(&mut self, item: &Item) -> Option<Answer> {
        if matches!(item, Item::Poke { .. }) {
            self.board = None;
        }
        let call = self.lent.prepare(item)?;
        Some(match self.refusal(&call) {
            // Both blocks stay as they were, and value and count are 0.
            Some(refusal) => Answer { refusal, value: 0, count: 0 },
            None => self.perform(&call),
        })
    }

    /// Of several refusals the least is answered; a reset can have the first two alone.
    fn refusal(&mut self, call: &Call) -> Option<u32> {
        if self.lent.state_len != STATE_WORDS {
            return Some(1);
        }
        if self.lent.log_len != LOG_WORDS {
            return Some(2);
        }
        if *call == Call::Reset {
            return None;
        }
        match self.board() {
            Ok(board) => board.refusal(call),
            Err(_) => Some(3),
        }
    }

    /// Makes a call that is not refused and stores what it leaves.
    fn perform(&mut self, call: &Call) -> Answer {
        if *call == Call::Reset {
            self.board = Some(Ok(Board::at_reset()));
        }
        let mut saved = self.lent.saved;
        let Ok(board) = self.board() else { unreachable!("a broken block is refused") };
        let (value, sent) = board.perform(call, &mut saved);
        self.store(&saved);
        // One word for each message; what stands in the log after them stays.
        for (word, message) in self.lent.log.iter_mut().zip(&sent) {
            *word = message.logged();
        }
        Answer { refusal: 0, value, count: sent.len() as u32 }
    }

    /// The block of the board as the call left it, and the record that a move gives back.
    fn store(&mut self, saved: &Saved) {
        self.lent.saved = *saved;
        if let Some(Ok(board)) = &self.board {
            block::encode(board, &mut self.lent.state[..STATE_WORDS]);
        }
    }
}
