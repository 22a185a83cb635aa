//! A record to be replayed: the calls of a shift from reset, set up as drivers would do it, with whole moves,
//! and damaged lines among them (docs/RECORD.md).

use std::collections::VecDeque;

use crate::calls::{Call, Item};
use crate::damage::Damages;
use crate::draw;
use crate::journey::{self, Journey};
use crate::mixed;
use crate::random::Random;
use crate::taste::Taste;

const READ: u64 = 0;
const WRITE: u64 = 1;
const MACHINE: u64 = 0;
const CHILD: u64 = 1;
/// IE and DM of domaincfg.
const BY_MESSAGES: u32 = 0x104;
const DELEGATED: u32 = 0x400;

struct Shift {
    random: Random,
    taste: Taste,
    calls: VecDeque<Call>,
    damages: Damages,
}

fn calls_of(items: Vec<Item>) -> impl Iterator<Item = Call> {
    items.into_iter().filter_map(|item| match item {
        Item::Call(call) => Some(call),
        _ => None,
    })
}

/// What one stretch of a shift likes, with few bad numbers.
fn taste(random: &mut Random) -> Taste {
    let mut taste = Taste::new(random);
    taste.bad = random.pick(&[0, 3, 10]);
    taste
}

/// What comes by itself while drivers leave their registers alone.
fn traffic(random: &mut Random, taste: &Taste) -> Call {
    let (hart, file) = taste.file(random);
    match random.below(10) {
        0..=4 => draw::wire(random, taste),
        5 | 6 => draw::page_write(random, taste),
        7 => Call::Top { hart, file },
        8 => Call::Claim { hart, file },
        _ => Call::Signals { hart },
    }
}

impl Shift {
    fn new(seed: u64) -> Shift {
        let mut random = Random::new(seed);
        let taste = taste(&mut random);
        Shift { random, taste, calls: VecDeque::new(), damages: Damages::new() }
    }

    fn write(&mut self, domain: u64, address: u64, value: u32) {
        self.calls.push_back(Call::DomainWrite { domain, address, value });
    }

    /// The next call. Resets are rare.
    fn call(&mut self) -> Call {
        loop {
            if let Some(call) = self.calls.pop_front() {
                return call;
            }
            self.plan();
        }
    }

    fn plan(&mut self) {
        match self.random.below(1000) {
            0..=1 => self.storm(),
            2..=6 => self.whole_move(),
            7..=16 => self.taste = taste(&mut self.random),
            17..=136 => self.calls.extend(calls_of(mixed::set_up(&mut self.random, &self.taste))),
            137..=196 => self.calls.extend(calls_of(mixed::set_up_file(&mut self.random, &self.taste))),
            197..=599 => self.calls.push_back(traffic(&mut self.random, &self.taste)),
            _ => {
                let call = draw::any(&mut self.random, &self.taste);
                if call != Call::Reset || self.random.percent(50) {
                    self.calls.push_back(call);
                }
            }
        }
    }

    /// All 63 sources of the machine domain are made pending and enabled, and then sent in one call.
    fn storm(&mut self) {
        self.write(MACHINE, 0, 0x004);
        for source in 1..=63 {
            self.write(MACHINE, 4 * source, 1);
            let target = draw::target_value(&mut self.random, &self.taste);
            self.write(MACHINE, 0x3000 + 4 * source, target);
        }
        for address in [0x1C00, 0x1C04, 0x1E00, 0x1E04] {
            self.write(MACHINE, address, u32::MAX);
        }
        self.write(MACHINE, 0, BY_MESSAGES);
        self.write(MACHINE, 0, 0);
    }

    /// A station moves: it is set up, the 89 accesses are made with wires and messages between them, and what
    /// the new file then has is read. Now and then a reset falls into the middle, which keeps the record.
    fn whole_move(&mut self) {
        let (items, journey) = journey::draw(&mut self.random, &self.taste);
        self.station(&journey);
        let reset_at = if self.random.percent(40) { self.random.range(60, 88) } else { 0 };
        for call in calls_of(items) {
            self.calls.push_back(call);
            if matches!(call, Call::Move { access, .. } if access == reset_at) {
                self.calls.push_back(Call::Reset);
                self.write(CHILD, 0, BY_MESSAGES);
            }
        }
        let (hart, file) = (journey.new.hart, journey.new.file);
        for select in [0x70, 0x72, 0x80, 0x82, 0x84, 0x86, 0xC0, 0xC2, 0xC4, 0xC6] {
            self.calls.push_back(Call::Register { hart, file, kind: READ, select, value: 0 });
        }
        self.calls.extend([Call::Signals { hart }, Call::Top { hart, file }, Call::Claim { hart, file }]);
    }

    /// The old file is enabled, and the child's liked sources send to it.
    fn station(&mut self, journey: &Journey) {
        let (hart, file) = (journey.old.hart, journey.old.file);
        self.write(CHILD, 0, BY_MESSAGES);
        for source in self.taste.sources.clone() {
            let mode = self.random.pick(&[1, 4, 5, 6, 7]);
            let identity = self.taste.identity(&mut self.random) as u32 & 0xFF;
            self.write(MACHINE, 4 * source, DELEGATED);
            self.write(CHILD, 4 * source, mode);
            self.write(CHILD, 0x3000 + 4 * source, (hart as u32) << 18 | (file as u32 - 1) << 12 | identity);
            self.write(CHILD, 0x1EDC, source as u32);
        }
        let threshold = self.random.pick(&[0, 0, 200, 255]);
        for (select, value) in [(0x70, 1), (0x72, threshold), (0xC0, u64::MAX), (0xC2, u64::MAX)] {
            self.calls.push_back(Call::Register { hart, file, kind: WRITE, select, value });
        }
        for _ in 0..self.random.below(4) {
            let value = self.taste.identity(&mut self.random) as u32;
            self.calls.push_back(Call::PageWrite { hart, file, address: 0, value });
        }
    }

    /// The next line, without its end; one in so many is damaged.
    fn line(&mut self, damaged: u64) -> Vec<u8> {
        if damaged > 0 && self.random.below(damaged) == 0 {
            return self.damages.line(&mut self.random, &self.taste);
        }
        let call = self.call();
        Item::Call(call).line().into_bytes()
    }
}

/// A record of so many lines, one in so many of them damaged, or none if that is 0. The last line of a damaged
/// record mostly has no end.
pub fn record(lines: u64, seed: u64, damaged: u64) -> Vec<u8> {
    let mut shift = Shift::new(seed);
    let mut record = Vec::new();
    for number in 1..=lines {
        let line = shift.line(damaged);
        let ends = number < lines || damaged == 0 || line.is_empty() || shift.random.percent(25);
        record.extend(line);
        if ends {
            record.push(b'\n');
        }
    }
    record
}
