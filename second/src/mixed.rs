//! Sequences of random calls, with broken blocks, odd blocks and wrong lengths among them.

use crate::block::{ENABLE, GENMSI, LOG_WORDS, MACHINE, PENDING, STATE_WORDS, STRUCTURES, SUPERVISOR, WIRES};
use crate::calls::{Call, Item};
use crate::draw;
use crate::lent::{Lent, LOG_BUFFER, STATE_BUFFER};
use crate::random::Random;
use crate::taste::Taste;

/// Values that are right in one word of a block and wrong in another.
const VALUES: [u32; 32] = [
    0, 1, 2, 3, 4, 5, 6, 7, 8, 0x80, 0xFF, 0x100, 0x101, 0x104, 0x105, 0x400, 0x401, 0x404, 0x800, 0x1028,
    0x1000, 0x3000, 0x4001, 0x1_0000, 0x2_0001, 0x4_0001, 0x8_1028, 0xC_30FF, 0x10_0001, 0x4000_0000,
    0x8000_0000, 0xFFFF_FFFF,
];

/// A word of the block: one of those that hold many sources' bits or a domain's own numbers, any word of the
/// wired controller, or any at all.
fn word(random: &mut Random) -> usize {
    let domain = random.pick(&[MACHINE, SUPERVISOR]);
    let own = [0, GENMSI, PENDING, PENDING + 1, ENABLE, ENABLE + 1, STRUCTURES + random.below(12) as usize];
    match random.below(20) {
        0..=7 => domain + random.pick(&own),
        8 => WIRES + random.below(2) as usize,
        9..=15 => random.range(WIRES as u64, STATE_WORDS as u64 - 1) as usize,
        _ => random.below(STATE_WORDS as u64) as usize,
    }
}

/// Another value for a word of the block.
pub fn poke(random: &mut Random, lent: &Lent) -> Item {
    let index = word(random);
    let value = match random.below(3) {
        0 => lent.state[index] ^ 1 << random.below(32),
        1 => random.pick(&VALUES),
        _ => lent.state[random.below(STATE_WORDS as u64) as usize],
    };
    Item::Poke { index, value }
}

/// One or more words of the block become others, calls are made, and with the pokes that put the words back.
pub fn broken(random: &mut Random, taste: &Taste, lent: &Lent) -> (Vec<Item>, Vec<Item>) {
    let mut items: Vec<Item> = (0..random.pick(&[1, 1, 1, 2, 2, 3])).map(|_| poke(random, lent)).collect();
    let mut back = Vec::new();
    for item in &items {
        if let Item::Poke { index, .. } = *item {
            back.push(Item::Poke { index, value: lent.state[index] });
        }
    }
    items.extend((0..random.range(1, 2)).map(|_| Item::Call(draw::any(random, taste))));
    (items, back)
}

fn wrong_length(random: &mut Random, right: usize, most: usize) -> usize {
    let edges = [0, 1, right - 1, right + 1, right, most];
    if random.percent(80) {
        random.pick(&edges)
    } else {
        random.below(most as u64 + 1) as usize
    }
}

/// Calls with blocks of other lengths, the right ones put back after them.
pub fn lengths(random: &mut Random, taste: &Taste, lent: &Lent) -> Vec<Item> {
    let state = wrong_length(random, STATE_WORDS, STATE_BUFFER);
    let log = wrong_length(random, LOG_WORDS, LOG_BUFFER);
    let (pokes, back) = if random.percent(25) { broken(random, taste, lent) } else { (vec![], vec![]) };
    let mut items = pokes;
    items.push(Item::Lengths { state, log });
    items.extend((0..random.range(1, 3)).map(|_| Item::Call(draw::any(random, taste))));
    if random.percent(20) {
        items.push(Item::Call(Call::Reset));
    }
    items.push(Item::Lengths { state: STATE_WORDS, log: LOG_WORDS });
    items.extend(back);
    items
}

/// Other numbers in the record of a move, or other words in the log, which the calls have to keep.
pub fn strays(random: &mut Random, taste: &Taste) -> Vec<Item> {
    if random.percent(50) {
        let index = random.below(LOG_BUFFER as u64) as usize;
        return vec![Item::Mark { index, value: random.number() as u32 }];
    }
    let index = random.pick(&[0, 0, 1, 1, 2, 3, 4, 5, 6, 7, 8, 9]);
    let value = match random.below(4) {
        0 => random.number(),
        1 | 2 if index < 2 => {
            random.pick(&[0, 1, 0x4000_0000, 0x1_0000_0000, 0x1_0000_0001, 256, 257, u64::MAX])
        }
        _ => taste.identity_word(random).1,
    };
    let mut call = draw::movement(random, taste);
    if let (Call::Move { access, .. }, true) = (&mut call, random.percent(80)) {
        // The access that uses the number: 89 and 88, then 80 to 87.
        *access = [89, 88, 80, 81, 82, 83, 84, 85, 86, 87][index];
    }
    vec![Item::Saved { index, value }, Item::Call(call)]
}

/// A file with one liked identity pending and enabled, and a threshold at it or beside it; then its top is
/// asked for.
pub fn set_up_file(random: &mut Random, taste: &Taste) -> Vec<Item> {
    let (hart, file) = random.pick(&taste.files);
    let identity = random.pick(&taste.identities) % 256;
    let bit = 1 << (identity % 64);
    let threshold = (identity + random.below(3)).saturating_sub(random.below(2));
    let write = |kind, select, value| Item::Call(Call::Register { hart, file, kind, select, value });
    let mut items = vec![Item::Call(Call::PageWrite { hart, file, address: 0, value: identity as u32 })];
    items.push(write(2, 0xC0 + identity / 64 * 2, bit));
    items.push(write(1, 0x72, threshold));
    if random.percent(50) {
        items.push(write(1, 0x70, 1));
    }
    items.extend(
        [Call::Top { hart, file }, Call::Signals { hart }, Call::Claim { hart, file }].map(Item::Call),
    );
    items.truncate(random.range(3, 8) as usize);
    items
}

/// A source is set up as a driver would do it, so that it sends or is claimed later on.
pub fn set_up(random: &mut Random, taste: &Taste) -> Vec<Item> {
    let domain = random.below(2);
    let source = random.pick(&taste.sources);
    let mode = random.pick(&[1, 4, 4, 5, 5, 6, 6, 7, 7]);
    let mut items = Vec::new();
    let mut write =
        |domain, address, value| items.push(Item::Call(Call::DomainWrite { domain, address, value }));
    if domain == 1 {
        write(0, 4 * source, 0x400);
    }
    write(domain, 4 * source, mode);
    let target = draw::target_value(random, taste);
    write(domain, 0x3000 + 4 * source, target);
    write(domain, 0x1EDC, source as u32);
    if random.percent(50) {
        write(domain, 0x0000, if taste.messages { 0x104 } else { 0x100 });
    }
    if random.percent(25) {
        // The hart's threshold at the source's priority or beside it; the source pending if it can be.
        let hart = u64::from(target >> 18 & 3);
        write(domain, 0x4008 + 32 * hart, (target & 0xFF) + random.below(2) as u32);
        write(domain, 0x4000 + 32 * hart, 1);
        write(domain, 0x1CDC, source as u32);
    }
    if random.percent(10) {
        // Delegated again, or given up by the child, with a mode beside bit 10.
        write(random.below(2), 4 * source, 0x400 | mode);
    }
    items
}
