//! A run: sequences of calls from a seed, each made on both sides, until enough calls are compared.

use crate::block::STATE_WORDS;
use crate::calls::{Call, Item};
use crate::compare::{self, Counts, Difference, Pair};
use crate::draw;
use crate::journey::{self, Journey};
use crate::mixed;
use crate::options::Options;
use crate::progress::Progress;
use crate::random::Random;
use crate::sound;
use crate::taste::Taste;

/// A difference, with the sequence that led to it.
pub struct Found {
    pub difference: Difference,
    pub items: Vec<Item>,
    /// The whole move whose promise was broken, if it was not a call that differed.
    pub journey: Option<Journey>,
    pub call: u64,
}

pub struct Run {
    calls: u64,
    random: Random,
    pair: Pair,
    items: Vec<Item>,
    reads: Vec<Call>,
    flips: usize,
    progress: Progress,
    pub counts: Counts,
}

impl Run {
    pub fn new(options: &Options) -> Run {
        Run {
            calls: options.calls,
            random: Random::new(options.seed),
            pair: Pair::new(),
            items: Vec::new(),
            reads: compare::every_read(),
            flips: 0,
            progress: Progress::new(options.quiet, options.calls),
            counts: Counts::default(),
        }
    }

    pub fn go(&mut self) -> Result<(), Box<Found>> {
        while self.counts.calls < self.calls {
            self.pair = Pair::new();
            self.items.clear();
            let taste = Taste::new(&mut self.random);
            match self.random.below(20) {
                0 => self.flip_sequence(&taste)?,
                1..=8 => self.journey_sequence(&taste)?,
                _ => self.mixed_sequence(&taste)?,
            }
            self.progress.tell(self.counts.calls);
        }
        self.progress.end();
        Ok(())
    }

    fn found(&self, difference: Difference, journey: Option<Journey>) -> Box<Found> {
        self.progress.end();
        let call = self.counts.calls + self.counts.reads + 1;
        Box::new(Found { difference, items: self.items.clone(), journey, call })
    }

    fn step(&mut self, item: Item) -> Result<(), Box<Found>> {
        self.items.push(item);
        match self.pair.apply(&item) {
            Err(difference) => Err(self.found(difference, None)),
            Ok(answer) => {
                if let Some(answer) = answer {
                    self.pair.count(&item, &answer, &mut self.counts);
                }
                Ok(())
            }
        }
    }

    fn steps(&mut self, items: Vec<Item>) -> Result<(), Box<Found>> {
        items.into_iter().try_for_each(|item| self.step(item))
    }

    /// Reads every readable register on both sides. The reads change nothing, so only a read that differs
    /// joins the sequence.
    fn read_all(&mut self) -> Result<(), Box<Found>> {
        if let Err(difference) = self.pair.check_model() {
            return Err(self.found(difference, None));
        }
        for place in 0..self.reads.len() {
            let item = Item::Call(self.reads[place]);
            if let Err(difference) = self.pair.apply(&item) {
                self.items.push(item);
                return Err(self.found(difference, None));
            }
            self.counts.reads += 1;
        }
        Ok(())
    }

    /// From a reset, a random sound block, or a block of zeros: some hundreds of random calls.
    fn mixed_sequence(&mut self, taste: &Taste) -> Result<(), Box<Found>> {
        match self.random.below(10) {
            0..=3 => self.step(Item::Call(Call::Reset))?,
            4 => {}
            _ => {
                let board = sound::board(&mut self.random, taste);
                self.steps(sound::pokes(&board))?;
            }
        }
        for turn in 1..=self.random.range(100, 600) {
            self.turn(taste)?;
            if turn % 200 == 0 {
                self.read_all()?;
            }
        }
        self.read_all()
    }

    /// The next few items of a mixed sequence.
    fn turn(&mut self, taste: &Taste) -> Result<(), Box<Found>> {
        match self.random.below(200) {
            0..=4 => {
                let items = mixed::lengths(&mut self.random, taste, &self.pair.model.lent);
                self.steps(items)?;
                self.mend(vec![])
            }
            5..=15 => {
                let (items, back) = mixed::broken(&mut self.random, taste, &self.pair.model.lent);
                self.steps(items)?;
                self.mend(back)
            }
            16..=20 => {
                let items = mixed::strays(&mut self.random, taste);
                self.steps(items)
            }
            21..=23 => {
                let items = mixed::set_up_file(&mut self.random, taste);
                self.steps(items)
            }
            24..=31 => {
                let items = mixed::set_up(&mut self.random, taste);
                self.steps(items)
            }
            _ => {
                let call = draw::any(&mut self.random, taste);
                self.step(Item::Call(call))
            }
        }
    }

    /// Puts the words of a broken block back, or resets it, which tests no rule.
    fn mend(&mut self, back: Vec<Item>) -> Result<(), Box<Found>> {
        if self.pair.model.board().is_ok() {
            return Ok(());
        }
        if self.random.percent(90) {
            self.steps(back)?;
        }
        if self.pair.model.board().is_err() {
            self.step(Item::Call(Call::Reset))?;
        }
        Ok(())
    }

    /// A sound block, and one bit of every word of it turned, a word at a time: 32 such sequences turn every
    /// bit.
    fn flip_sequence(&mut self, taste: &Taste) -> Result<(), Box<Found>> {
        let board = sound::board(&mut self.random, taste);
        let start = sound::pokes(&board);
        self.steps(start.clone())?;
        self.flips += 1;
        for index in 0..STATE_WORDS {
            let before = self.pair.model.lent.state[index];
            let bit = (index * 7 + self.flips) % 32;
            self.step(Item::Poke { index, value: before ^ 1 << bit })?;
            let call = draw::any(&mut self.random, taste);
            self.step(Item::Call(call))?;
            if call == Call::Reset {
                self.steps(start.clone())?;
            }
            if self.pair.model.board().is_err() {
                self.step(Item::Poke { index, value: before })?;
            }
            if self.pair.model.board().is_err() {
                self.step(Item::Call(Call::Reset))?;
            }
        }
        self.read_all()
    }

    /// A whole move, and what it promises.
    fn journey_sequence(&mut self, taste: &Taste) -> Result<(), Box<Found>> {
        let (items, journey) = journey::draw(&mut self.random, taste);
        let whole = journey::premises_hold(&items, &journey);
        self.steps(items)?;
        if !whole {
            let lines =
                vec!["a drawn move does not keep its premises: the model is at odds with its rules".into()];
            return Err(self.found(Difference { lines }, None));
        }
        if let Err(difference) = journey::check(&self.items, &journey, &self.pair.library.lent.state) {
            return Err(self.found(difference, Some(journey)));
        }
        self.counts.moves += 1;
        self.read_all()
    }
}

/// Makes a sequence again from its start: the difference, and how many items led to it.
pub fn again(items: &[Item], journey: Option<&Journey>) -> Option<(Difference, usize)> {
    if journey.is_some_and(|journey| !journey::premises_hold(items, journey)) {
        return None;
    }
    let mut pair = Pair::new();
    for (place, item) in items.iter().enumerate() {
        if let Err(difference) = pair.apply(item) {
            return Some((difference, place + 1));
        }
    }
    let state = &pair.library.lent.state;
    let difference = journey.and_then(|journey| journey::check(items, journey, state).err())?;
    Some((difference, items.len()))
}
