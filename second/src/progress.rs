//! A progress line on standard error, now and then.

use std::io::{stderr, IsTerminal, Write};
use std::time::{Duration, Instant};

pub struct Progress {
    quiet: bool,
    terminal: bool,
    goal: u64,
    last: Instant,
}

impl Progress {
    pub fn new(quiet: bool, goal: u64) -> Progress {
        Progress { quiet, terminal: stderr().is_terminal(), goal, last: Instant::now() }
    }

    pub fn tell(&mut self, calls: u64) {
        let pause = if self.terminal { Duration::from_millis(200) } else { Duration::from_secs(5) };
        if self.quiet || self.last.elapsed() < pause {
            return;
        }
        self.last = Instant::now();
        if self.terminal {
            eprint!("\rsecond: {calls} of {} calls", self.goal);
            _ = stderr().flush();
        } else {
            eprintln!("second: {calls} of {} calls", self.goal);
        }
    }

    /// Clears the line of a terminal.
    pub fn end(&self) {
        if self.terminal && !self.quiet {
            eprint!("\r\x1b[K");
        }
    }
}
