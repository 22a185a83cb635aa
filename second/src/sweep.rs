//! Calls that go through every register, every edge of the select numbers, and every refusal with what goes
//! before it.

use crate::block::{LOG_WORDS, STATE_WORDS};
use crate::calls::{Call, Item};

/// The named words of a domain's region but sourcecfg and target, and words beside them that are not named.
const WORDS: [u64; 40] = [
    0x0000, 0x1C00, 0x1C04, 0x1C08, 0x1CDC, 0x1D00, 0x1D04, 0x1D08, 0x1DDC, 0x1E00, 0x1E04, 0x1E08, 0x1EDC,
    0x1F00, 0x1F04, 0x1F08, 0x1FDC, 0x2000, 0x2004, 0x2008, 0x3000, 0x3100, 0x0100, 0x1BC0, 0x1BC4, 0x1BC8,
    0x1BCC, 0x3FFC, 0x4000, 0x4004, 0x4008, 0x400C, 0x4010, 0x4014, 0x4018, 0x401C, 0x4060, 0x407C, 0x4080,
    0x4FFC,
];

fn write(domain: u64, address: u64, value: u32) -> Item {
    Item::Call(Call::DomainWrite { domain, address, value })
}

fn read(domain: u64, address: u64) -> Item {
    Item::Call(Call::DomainRead { domain, address })
}

/// Every sourcecfg and every target of a domain is written and read.
fn sources(domain: u64, items: &mut Vec<Item>) {
    const MODES: [u32; 7] = [4, 6, 1, 7, 5, 6, 2];
    for source in 1..=63 {
        let target = (source as u32 % 4) << 18 | (source as u32 % 3) << 12 | source as u32 * 4;
        items.push(write(domain, 4 * source, MODES[source as usize % 7]));
        items.push(read(domain, 4 * source));
        items.push(write(domain, 0x3000 + 4 * source, target));
        items.push(read(domain, 0x3000 + 4 * source));
    }
}

/// Every other word of a domain is written and read.
fn words(domain: u64, items: &mut Vec<Item>) {
    for address in WORDS.into_iter().skip(1) {
        let value = match address {
            0x1C00..=0x1F08 if address % 0x100 < 0x10 => 0xA5A5_5A5B,
            0x2004 => 7 << 24,
            0x3000 => 0xFFFF_FF2A,
            0x4000.. => 1,
            _ => 7,
        };
        items.push(write(domain, address, value));
        items.push(read(domain, address));
    }
}

/// Every register of both domains, the machine domain first with all sources, then the child with all of them
/// delegated; the words in direct mode and in message mode.
pub fn registers() -> Vec<Item> {
    let mut items = vec![Item::Call(Call::Reset)];
    for wire in [1, 2, 3, 7, 31, 32, 62] {
        items.push(Item::Call(Call::Wire { wire, level: 1 }));
    }
    for domain in 0..2 {
        if domain == 1 {
            items.extend((1..=63).map(|source| write(0, 4 * source, 0x400)));
        }
        items.extend([read(domain, 0), write(domain, 0, 0xFFFF_FFFB), read(domain, 0)]);
        sources(domain, &mut items);
        words(domain, &mut items);
        items.extend([write(domain, 0, 0x4), read(domain, 0)]);
        words(domain, &mut items);
        items.extend([write(domain, 0x1E00, 0xFFFF_FFFF), write(domain, 0x1E04, 0xFFFF_FFFF)]);
        items.extend([write(domain, 0, 0x104), read(domain, 0), write(domain, 0, 0x100), read(domain, 0)]);
    }
    items
}

/// Every select number near an edge, by every kind of access, in a guest file and a supervisor file.
pub fn selects() -> Vec<Item> {
    const SELECTS: [u64; 24] = [
        0x6F, 0x70, 0x71, 0x72, 0x73, 0x7F, 0x80, 0x81, 0x82, 0x84, 0x86, 0x87, 0x88, 0xBE, 0xBF, 0xC0, 0xC1,
        0xC6, 0xC7, 0xC8, 0xFE, 0xFF, 0x100, 0x1_0000_0070,
    ];
    let mut items = Vec::new();
    for (hart, file) in [(3, 1), (1, 3)] {
        for select in SELECTS {
            let value = if select == 0x70 { 1 } else { 0x8000_0000_0001_0203 };
            for kind in [1, 2, 0, 3, 0] {
                let value = if kind == 3 { 0x8000_0000_0000_0001 } else { value };
                items.push(Item::Call(Call::Register { hart, file, kind, select, value }));
            }
        }
        for value in [0x4000_0000, 0x1_0000_0000, 2] {
            items.push(Item::Call(Call::Register { hart, file, kind: 1, select: 0x70, value }));
            items.push(Item::Call(Call::Register { hart, file, kind: 0, select: 0x70, value: 9 }));
        }
    }
    items
}

/// A number whose low 32 bits name something.
const BIG: u64 = 0x1_0000_0001;

/// Calls of the wires and domains with a number that names nothing, or a bad address, or both.
const WRONG_WIRED: [Call; 11] = [
    Call::Reset,
    Call::Wire { wire: 0, level: 0 },
    Call::Wire { wire: 64, level: 1 },
    Call::Wire { wire: 63, level: 2 },
    Call::Wire { wire: BIG, level: 1 },
    Call::DomainRead { domain: 2, address: 0 },
    Call::DomainRead { domain: 2, address: 1 },
    Call::DomainRead { domain: 1, address: 0x4FFE },
    Call::DomainWrite { domain: BIG, address: 0x5000, value: 1 },
    Call::DomainWrite { domain: 0, address: 0x5000, value: 1 },
    Call::DomainWrite { domain: 0, address: 0x1_0000_0000, value: 0x104 },
];

/// The same for files.
const WRONG_FILES: [Call; 15] = [
    Call::PageRead { hart: 4, file: 0, address: 2 },
    Call::PageRead { hart: 0, file: 0, address: 0x1000 },
    Call::PageRead { hart: 0, file: 0, address: 0xFFC },
    Call::PageWrite { hart: 0, file: 5, address: 3, value: 7 },
    Call::PageWrite { hart: 0, file: 4, address: 3, value: 7 },
    Call::Register { hart: 0, file: 0, kind: 4, select: 0x70, value: 0 },
    Call::Register { hart: 0, file: 0, kind: 4, select: 0x81, value: 0 },
    Call::Register { hart: 4, file: 0, kind: 1, select: 0x81, value: 0 },
    Call::Register { hart: 0, file: 0, kind: 3, select: 0x81, value: 0 },
    Call::Top { hart: 4, file: 0 },
    Call::Top { hart: 0, file: 5 },
    Call::Claim { hart: BIG, file: 1 },
    Call::Claim { hart: 1, file: BIG },
    Call::Signals { hart: 4 },
    Call::Signals { hart: u64::MAX },
];

const fn from_guest_1(new_hart: u64, new_file: u64, access: u64) -> Call {
    Call::Move { old_hart: 0, old_file: 2, new_hart, new_file, access }
}

/// Moves that are barred, and a last one that only the child's mode bars.
const BARRED: [Call; 8] = [
    from_guest_1(0, 2, 1),
    Call::Move { old_hart: 0, old_file: 1, new_hart: 0, new_file: 2, access: 1 },
    from_guest_1(0, 5, 1),
    from_guest_1(4, 2, 1),
    from_guest_1(1, 2, 0),
    from_guest_1(1, 2, 90),
    from_guest_1(1, 2, BIG),
    from_guest_1(1, 2, 3),
];

fn wrong() -> Vec<Item> {
    WRONG_WIRED.into_iter().chain(WRONG_FILES).chain(BARRED).map(Item::Call).collect()
}

/// Every refusal, and what is given when several apply: the wrong calls with right blocks, a broken state, a
/// wrong log, a wrong state, and all of these.
pub fn refusals() -> Vec<Item> {
    let (right, right_log) = (STATE_WORDS, LOG_WORDS);
    let wrong_lengths = [
        (right, right_log - 1),
        (right, right_log + 1),
        (right - 1, right_log),
        (right + 1, right_log),
        (0, 0),
        (right - 1, right_log - 1),
    ];
    let mut items = wrong();
    // The child in direct mode bars a move that is right otherwise.
    items.extend([write(1, 0, 0), Item::Call(from_guest_1(1, 2, 3)), write(1, 0, 4)]);
    items.push(Item::Poke { index: 1, value: 256 });
    // Reset would mend the state, so that it is left out where the lengths are right.
    items.extend(wrong().into_iter().skip(1));
    for (state, log) in wrong_lengths {
        items.push(Item::Lengths { state, log });
        items.extend(wrong().into_iter().step_by(3));
    }
    items.extend([Item::Lengths { state: right, log: right_log }, Item::Poke { index: 1, value: 6 }]);
    items
}
