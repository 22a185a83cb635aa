//! The comparison of one item on both sides, and of every readable register.

use std::collections::BTreeMap;

use crate::block::{self, STATE_WORDS};
use crate::calls::{Call, Item};
use crate::lent::{Answer, Lent, Library, Model};
use crate::rules::Rule;

/// What differs, a line for each field.
#[derive(Clone, Debug)]
pub struct Difference {
    pub lines: Vec<String>,
}

/// What a run has seen.
#[derive(Default)]
pub struct Counts {
    pub calls: u64,
    pub reads: u64,
    pub refusals: [u64; 7],
    pub messages: u64,
    pub moves: u64,
    pub broken: BTreeMap<Rule, u64>,
}

/// Both sides, at the same place of one sequence.
pub struct Pair {
    pub model: Model,
    pub library: Library,
}

fn answer_lines(library: &Answer, model: &Answer, lines: &mut Vec<String>) {
    let fields = [
        ("refusal", u64::from(library.refusal), u64::from(model.refusal)),
        ("value", library.value, model.value),
        ("count", library.count.into(), model.count.into()),
    ];
    for (name, theirs, ours) in fields {
        if theirs != ours {
            lines.push(format!("{name}: the library answered {theirs:#x}, the model says {ours:#x}"));
        }
    }
}

fn word_lines(name: &str, library: &[u32], model: &[u32], lines: &mut Vec<String>) {
    for (place, (theirs, ours)) in library.iter().zip(model).enumerate() {
        if theirs != ours {
            lines.push(format!("{name} word {place}: the library has {theirs:#x}, the model {ours:#x}"));
        }
    }
}

fn lent_lines(library: &Lent, model: &Lent, lines: &mut Vec<String>) {
    word_lines("state", &library.state, &model.state, lines);
    word_lines("log", &library.log, &model.log, lines);
    for place in 0..10 {
        let (theirs, ours) = (library.saved[place], model.saved[place]);
        if theirs != ours {
            lines.push(format!("record number {place}: the library has {theirs:#x}, the model {ours:#x}"));
        }
    }
}

impl Pair {
    pub fn new() -> Pair {
        Pair { model: Model::new(), library: Library::new() }
    }

    /// Makes an item on both sides. A call's answer, both blocks (beyond their ends too) and the record have
    /// to be the same; the model has left both blocks alone if it refused.
    pub fn apply(&mut self, item: &Item) -> Result<Option<Answer>, Difference> {
        let ours = self.model.apply(item);
        let theirs = self.library.apply(item);
        if ours == theirs && self.model.lent == self.library.lent {
            return Ok(ours);
        }
        let mut lines = Vec::new();
        if let (Some(theirs), Some(ours)) = (theirs, ours) {
            answer_lines(&theirs, &ours, &mut lines);
        }
        lent_lines(&self.library.lent, &self.model.lent, &mut lines);
        Err(Difference { lines })
    }

    /// Counts a call that was compared.
    pub fn count(&mut self, item: &Item, answer: &Answer, counts: &mut Counts) {
        counts.calls += 1;
        counts.refusals[answer.refusal as usize] += 1;
        counts.messages += u64::from(answer.count);
        if answer.refusal == 3 && !matches!(item, Item::Call(Call::Reset)) {
            if let Err(rule) = self.model.board() {
                *counts.broken.entry(*rule).or_default() += 1;
            }
        }
    }

    /// The model's own order: its block keeps the rules, and says the board that it came from.
    pub fn check_model(&mut self) -> Result<(), Difference> {
        let words = self.model.lent.state[..STATE_WORDS].to_vec();
        let Ok(board) = self.model.board() else { return Ok(()) };
        match block::decode(&words) {
            Ok(said) if said == *board => Ok(()),
            Ok(_) => Err(Difference { lines: vec!["the model's block says another board".into()] }),
            Err(rule) => {
                Err(Difference { lines: vec![format!("the model left a block that breaks a rule: {rule}")] })
            }
        }
    }
}

fn domain_reads(domain: u64, reads: &mut Vec<Call>) {
    let mut addresses = vec![0x0000, 0x1CDC, 0x1DDC, 0x1EDC, 0x1FDC, 0x2000, 0x2004, 0x3000];
    addresses.extend((1..=63).flat_map(|source| [4 * source, 0x3000 + 4 * source]));
    addresses.extend((0..2).flat_map(|k| [0x1C00 + 4 * k, 0x1D00 + 4 * k, 0x1E00 + 4 * k, 0x1F00 + 4 * k]));
    // claimi is not among them: its read changes the state.
    addresses
        .extend((0..4).flat_map(|hart| [0x00, 0x04, 0x08, 0x18].map(|offset| 0x4000 + 32 * hart + offset)));
    reads.extend(addresses.into_iter().map(|address| Call::DomainRead { domain, address }));
}

fn file_reads(hart: u64, file: u64, reads: &mut Vec<Call>) {
    let selects = [0x70, 0x72, 0x80, 0x82, 0x84, 0x86, 0xC0, 0xC2, 0xC4, 0xC6];
    reads.extend(selects.map(|select| Call::Register { hart, file, kind: 0, select, value: 0 }));
    reads.push(Call::Top { hart, file });
}

/// The calls that read every readable register of both domains, every file register, every top and the
/// signals of every hart.
pub fn every_read() -> Vec<Call> {
    let mut reads = Vec::new();
    for domain in 0..2 {
        domain_reads(domain, &mut reads);
    }
    for hart in 0..4 {
        (0..5).for_each(|file| file_reads(hart, file, &mut reads));
        reads.push(Call::Signals { hart });
    }
    reads
}
