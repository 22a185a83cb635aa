//! A record run from reset, and its answers as docs/RECORD.md has them: the model alone, with no library.

use std::io::{self, Write};

use crate::board::Board;
use crate::calls::Call;
use crate::movement::Saved;
use crate::reader;

/// The board, and the record of a move, which is kept from one access to the next and by a reset.
struct Replay {
    board: Board,
    saved: Saved,
}

impl Replay {
    /// Makes a call: refusal, value, count, and the words that it logged.
    fn answer(&mut self, call: &Call) -> Vec<u64> {
        if let Some(refusal) = self.board.refusal(call) {
            return vec![refusal.into(), 0, 0];
        }
        let (value, sent) = self.board.perform(call, &mut self.saved);
        let mut fields = vec![0, value, sent.len() as u64];
        fields.extend(sent.iter().map(|message| u64::from(message.logged())));
        fields
    }
}

/// Writes the answers to a record, a line for each of its lines. One that cannot be read changes nothing.
pub fn run(record: &[u8], mut to: impl Write) -> io::Result<()> {
    let mut replay = Replay { board: Board::at_reset(), saved: Saved::default() };
    let mut number: u64 = 0;
    for line in reader::lines(record) {
        number += 1;
        let fields = match reader::call(line) {
            Some(call) => replay.answer(&call),
            None => vec![],
        };
        write!(to, "{number}")?;
        for field in fields {
            write!(to, "\t{field}")?;
        }
        to.write_all(b"\n")?;
    }
    to.flush()
}
