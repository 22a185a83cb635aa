//! Recorded cases: calls as text, and what the model alone answers to them.

use crate::block::{self, STATE_WORDS};
use crate::board::Board;
use crate::calls::{Call, Item};
use crate::draw;
use crate::journey;
use crate::lent::{Answer, Model};
use crate::mixed;
use crate::random::Random;
use crate::rules;
use crate::sound;
use crate::sweep;
use crate::table;
use crate::taste::Taste;

/// The model, and the two texts.
pub struct Recorder {
    model: Model,
    random: Random,
    line: u64,
    pub calls: u64,
    pub cases: String,
    pub answers: String,
}

impl Recorder {
    fn new(seed: u64) -> Recorder {
        let (cases, answers) = (String::new(), String::new());
        Recorder { model: Model::new(), random: Random::new(seed), line: 0, calls: 0, cases, answers }
    }

    /// Over all state words, all log words, and the record as twenty words.
    fn digest(&self) -> u32 {
        let lent = &self.model.lent;
        let record = lent.saved.iter().flat_map(|number| [*number as u32, (number >> 32) as u32]);
        let words = lent.state.iter().chain(&lent.log).copied().chain(record);
        words.fold(0, |digest: u32, word| digest.wrapping_mul(31).wrapping_add(word))
    }

    /// Writes an item's line and, if it is a call, the line of its answer.
    fn item(&mut self, item: Item) -> Option<Answer> {
        self.line += 1;
        self.cases.push_str(&item.line());
        self.cases.push('\n');
        let answer = self.model.apply(&item)?;
        self.calls += 1;
        let mut fields = vec![self.line, answer.refusal.into(), answer.value, answer.count.into()];
        fields.push(self.digest().into());
        fields.extend(self.model.lent.log[..answer.count as usize].iter().map(|word| u64::from(*word)));
        let fields: Vec<String> = fields.iter().map(u64::to_string).collect();
        self.answers.push_str(&fields.join("\t"));
        self.answers.push('\n');
        Some(answer)
    }

    fn items(&mut self, items: impl IntoIterator<Item = Item>) {
        items.into_iter().for_each(|item| _ = self.item(item));
    }

    fn taste(&mut self) -> Taste {
        Taste::new(&mut self.random)
    }

    /// The table cases, each held to what the paper says.
    fn table(&mut self) {
        for (item, expected) in table::cases() {
            let answer = self.item(item).map(|answer| (answer.refusal, answer.value));
            assert!(
                expected.is_none() || answer == expected,
                "{}: {answer:?}, not {expected:?}",
                item.line()
            );
        }
    }

    /// Pokes the words in which a board differs from the one that there is.
    fn poke_to(&mut self, board: &Board) {
        let mut words = vec![0; STATE_WORDS];
        block::encode(board, &mut words);
        for (index, value) in words.into_iter().enumerate() {
            if self.model.lent.state[index] != value {
                self.item(Item::Poke { index, value });
            }
        }
    }

    /// A whole move from a start of its own. The record is what the last move left.
    fn whole_move(&mut self) {
        let taste = self.taste();
        let (items, _) = journey::draw(&mut self.random, &taste);
        let is_event = |item: &Item| matches!(item, Item::Call(_));
        let (events, start): (Vec<Item>, Vec<Item>) = items.into_iter().partition(is_event);
        let mut words = vec![0; STATE_WORDS];
        for item in start {
            if let Item::Poke { index, value } = item {
                words[index] = value;
            }
        }
        self.poke_to(&block::decode(&words).expect("a move starts on a sound block"));
        self.items(events);
    }

    /// A poke that breaks just this rule first, if one is found by trying.
    fn breaker(&mut self, rule: rules::Rule) -> Option<(Item, Item)> {
        for _ in 0..20_000 {
            let item = mixed::poke(&mut self.random, &self.model.lent);
            let Item::Poke { index, value } = item else { continue };
            let mut words = self.model.lent.state[..STATE_WORDS].to_vec();
            let back = Item::Poke { index, value: words[index] };
            words[index] = value;
            if rules::first_broken(&words) == Some(rule) {
                return Some((item, back));
            }
        }
        None
    }

    /// Each rule broken at some places, on a busy board: a call is refused, and the word is put back.
    fn broken_rules(&mut self) {
        let mut taste = self.taste();
        taste.bad = 0;
        for rule in rules::names() {
            for _ in 0..3 {
                while self.breaker(rule).is_none() {
                    let board = sound::board(&mut self.random, &taste);
                    self.poke_to(&board);
                }
                let Some((item, back)) = self.breaker(rule) else { continue };
                let call = Item::Call(draw::any(&mut self.random, &taste));
                self.items([item, call, back]);
            }
        }
        // Reset tests no rule.
        self.items([Item::Poke { index: block::WIRES, value: 1 }, Item::Call(Call::Reset)]);
    }

    /// All 63 sources of a domain send in one call.
    fn storm(&mut self) {
        let taste = self.taste();
        for domain in 0..2 {
            let board = sound::full_board(&mut self.random, &taste);
            self.poke_to(&board);
            self.item(Item::Call(Call::DomainWrite { domain, address: 0, value: 0x104 }));
            self.item(Item::Call(Call::DomainWrite { domain: 1 - domain, address: 0, value: 0x104 }));
        }
    }

    /// Random calls on a random sound block, or from a reset.
    fn mixed(&mut self, calls: u64) {
        let taste = self.taste();
        if self.random.percent(50) {
            self.item(Item::Call(Call::Reset));
        } else {
            let board = sound::board(&mut self.random, &taste);
            self.poke_to(&board);
        }
        let end = self.calls + calls;
        while self.calls < end {
            self.turn(&taste);
        }
    }

    fn turn(&mut self, taste: &Taste) {
        match self.random.below(50) {
            0 => {
                let items = mixed::lengths(&mut self.random, taste, &self.model.lent);
                self.items(items);
                self.mend(vec![]);
            }
            1 => {
                let (items, back) = mixed::broken(&mut self.random, taste, &self.model.lent);
                self.items(items);
                self.mend(back);
            }
            5 => {
                let items = mixed::set_up_file(&mut self.random, taste);
                self.items(items);
            }
            2..=4 => {
                let items = mixed::set_up(&mut self.random, taste);
                self.items(items);
            }
            _ => {
                let call = draw::any(&mut self.random, taste);
                self.item(Item::Call(call));
            }
        }
    }

    /// Puts a broken block back.
    fn mend(&mut self, back: Vec<Item>) {
        if self.model.board().is_err() {
            self.items(back);
        }
        if self.model.board().is_err() {
            self.item(Item::Call(Call::Reset));
        }
    }
}

/// Some so many calls, with all that has to be there whatever the number is.
pub fn record(calls: u64, seed: u64) -> Recorder {
    let mut recorder = Recorder::new(seed);
    recorder.table();
    recorder.items(sweep::refusals());
    recorder.items(sweep::selects());
    recorder.items(sweep::registers());
    recorder.broken_rules();
    recorder.storm();
    for _ in 0..3 {
        recorder.whole_move();
    }
    while recorder.calls < calls {
        let left = calls - recorder.calls;
        recorder.mixed(left.min(150));
    }
    recorder
}
