//! Random calls, drawn so that what seldom comes by chance comes often: sends, delegations, changes of mode,
//! level sources, claims, whole moves.

use crate::calls::Call;
use crate::random::Random;
use crate::taste::Taste;

/// Select numbers at every edge.
const SELECTS: [u64; 34] = [
    0, 0x6F, 0x70, 0x71, 0x72, 0x73, 0x74, 0x7E, 0x7F, 0x80, 0x81, 0x82, 0x83, 0x86, 0x87, 0x88, 0x8A, 0xBE,
    0xBF, 0xC0, 0xC1, 0xC6, 0xC7, 0xC8, 0xFE, 0xFF, 0x100, 0x102, 0x170, 0x1_0000_0070, 0x1_0000_0080,
    0x1_0000_00C0, 0x8000_0000_0000_0072, 0xFFFF_FFFF_FFFF_FFFF,
];

/// Addresses of a domain's region at the ends of what is named, and bad ones.
const ADDRESSES: [u64; 50] = [
    0x0001, 0x0002, 0x0003, 0x00FC, 0x0100, 0x0104, 0x0FFC, 0x1000, 0x1BC0, 0x1BC4, 0x1BC8, 0x1BCC, 0x1BFC,
    0x1C08, 0x1C7C, 0x1CD8, 0x1CE0, 0x1D08, 0x1D7C, 0x1DD8, 0x1E08, 0x1E7C, 0x1EE0, 0x1F08, 0x1FE0, 0x1FFC,
    0x2008, 0x2FFC, 0x30FC, 0x3100, 0x3FFC, 0x400C, 0x4010, 0x4014, 0x406C, 0x407C, 0x4080, 0x4084, 0x4098,
    0x409C, 0x4FFC, 0x5000, 0x5004, 0x1CDD, 0x3002, 0x4FFE, 0x1_0000_0000, 0x1_0000_0004,
    0xFFFF_FFFF_FFFF_FFFC, 0xFFFF_FFFF_FFFF_FFFF,
];

const PAGE_ADDRESSES: [u64; 16] = [
    0x000, 0x004, 0x008, 0x00C, 0x010, 0x100, 0xFF8, 0xFFC, 0x001, 0x002, 0x006, 0x1000, 0x1004,
    0x1_0000_0000, 0x1_0000_0004, 0xFFFF_FFFF_FFFF_F000,
];

/// A call of any kind.
pub fn any(random: &mut Random, taste: &Taste) -> Call {
    let draw = random.weighted::<fn(&mut Random, &Taste) -> Call>(&[
        (2, |_, _| Call::Reset),
        (150, wire),
        (360, domain_write),
        (110, domain_read),
        (80, page_write),
        (10, page_read),
        (140, register),
        (30, |random, taste| {
            let (hart, file) = taste.file(random);
            Call::Top { hart, file }
        }),
        (50, |random, taste| {
            let (hart, file) = taste.file(random);
            Call::Claim { hart, file }
        }),
        (30, |random, taste| Call::Signals { hart: taste.hart(random) }),
        (40, movement),
    ]);
    draw(random, taste)
}

pub fn wire(random: &mut Random, taste: &Taste) -> Call {
    Call::Wire { wire: taste.wire(random), level: taste.level(random) }
}

pub fn page_write(random: &mut Random, taste: &Taste) -> Call {
    let (hart, file) = taste.file(random);
    let (address, value) = page_words(random, taste);
    let address = if taste.is_bad(random) { random.pick(&PAGE_ADDRESSES) } else { address };
    Call::PageWrite { hart, file, address, value }
}

/// An address and a value of a page write.
pub fn page_words(random: &mut Random, taste: &Taste) -> (u64, u32) {
    let identity = taste.identity(random) as u32;
    match random.below(20) {
        0 => (random.pick(&PAGE_ADDRESSES), identity),
        1 => (
            random.pick(&[0, 4]),
            random.pick(&[identity | 256, identity | 1 << 31, identity << 8, u32::MAX]),
        ),
        2..=6 => (4, identity.swap_bytes()),
        7 => (4, identity),
        _ => (0, identity),
    }
}

fn page_read(random: &mut Random, taste: &Taste) -> Call {
    let (hart, file) = taste.file(random);
    Call::PageRead { hart, file, address: random.pick(&PAGE_ADDRESSES) }
}

pub fn domain_read(random: &mut Random, taste: &Taste) -> Call {
    let domain = taste.domain(random);
    let structure = 0x4000 + 32 * random.below(4);
    let liked = 0x4000 + 32 * random.pick(&taste.harts);
    let source = taste.source(random);
    let address = match random.below(20) {
        0..=5 => liked + 0x1C,
        6..=8 => liked + 0x18,
        9 => structure + 4 * random.below(8),
        10 => 0x3000 + 4 * source,
        11 => 4 * source,
        12 => 0x1C00 + 4 * random.below(3),
        13 | 14 => 0x1D00 + 4 * random.below(3),
        15 => 0x1E00 + 4 * random.below(3),
        16 => random.pick(&[0x0000, 0x3000, 0x1CDC, 0x1DDC, 0x1EDC, 0x1FDC, 0x1F00, 0x1F04, 0x2000, 0x2004]),
        17 => 4 * random.below(0x1400),
        _ => random.pick(&ADDRESSES),
    };
    Call::DomainRead { domain, address }
}

pub fn domain_write(random: &mut Random, taste: &Taste) -> Call {
    let domain = taste.domain(random);
    let (address, value) = random.weighted::<fn(&mut Random, &Taste) -> (u64, u32)>(&[
        (5, domaincfg),
        (15, sourcecfg),
        (4, |random, taste| (0x1C00 + 4 * random.below(2), taste.mask(random))),
        (4, |random, taste| (0x1D00 + 4 * random.below(2), taste.mask(random))),
        (6, |random, taste| (0x1E00 + 4 * random.below(2), taste.mask(random))),
        (2, |random, taste| (0x1F00 + 4 * random.below(2), taste.mask(random))),
        (10, |random, taste| (random.pick(&[0x1CDC, 0x1CDC, 0x2000]), taste.source_number(random))),
        (3, |random, taste| (0x2004, taste.source_number(random).swap_bytes())),
        (1, |random, taste| (0x2004, taste.source_number(random))),
        (5, |random, taste| (0x1DDC, taste.source_number(random))),
        (10, |random, taste| (0x1EDC, taste.source_number(random))),
        (4, |random, taste| (0x1FDC, taste.source_number(random))),
        (4, |random, taste| (0x3000, target_value(random, taste))),
        (14, |random, taste| (0x3000 + 4 * taste.source(random), target_value(random, taste))),
        (8, structure),
        (1, |random, taste| (4 * random.below(0x1400), taste.source_number(random))),
        (2, |random, taste| (random.pick(&ADDRESSES), taste.source_number(random))),
    ])(random, taste);
    let address = if taste.is_bad(random) { random.pick(&ADDRESSES) } else { address };
    Call::DomainWrite { domain, address, value }
}

fn domaincfg(random: &mut Random, taste: &Taste) -> (u64, u32) {
    let liked = 0x100 | if taste.messages { 4 } else { 0 };
    let plain = if random.percent(60) { liked } else { random.pick(&[0, 4, 0x100, 0x104]) };
    let stray = if random.percent(20) { random.number() as u32 & !0x104 } else { 0 };
    (0, plain | stray)
}

fn sourcecfg(random: &mut Random, taste: &Taste) -> (u64, u32) {
    let value = match random.below(20) {
        0..=2 => 0x400,
        3 => random.pick(&[0x401, 0x404, 0x405, 0x406, 0x407, 0x7FF, 0xFFFF_FFFF]),
        4 => random.pick(&[0, 2, 3]),
        5 => random.pick(&[8, 9, 0x10, 0x800, 0x806, 0x204, 0xFFFF_FBFE]),
        6 | 7 => 1,
        8..=12 => random.pick(&[4, 5]),
        _ => random.pick(&[6, 7]),
    };
    (4 * taste.source(random), value)
}

/// A value for a target or genmsi: both modes' fields, a few harts, few low numbers so that ties happen.
pub fn target_value(random: &mut Random, taste: &Taste) -> u32 {
    let hart = if random.percent(80) { random.pick(&taste.harts) } else { random.below(4) } as u32;
    let low = if random.percent(40) { random.below(4) as u32 } else { taste.identity(random) as u32 };
    let guest = random.below(4) as u32;
    match random.below(10) {
        0 => random.number() as u32,
        1 => hart << 18 | low | random.pick(&[1 << 8, 1 << 11, 1 << 14, 1 << 17, 1 << 20, 1 << 31]),
        _ => hart << 18 | guest << 12 | low,
    }
}

fn structure(random: &mut Random, taste: &Taste) -> (u64, u32) {
    let hart = if random.percent(85) { random.pick(&taste.harts) } else { random.below(5) };
    let (offset, value) = match random.below(10) {
        0..=3 => (0x00, random.pick(&[0, 1, 1, 1, 2, 0x101, 0x8000_0001])),
        4..=6 => (0x04, random.pick(&[0, 1, 1, 2, 0x101, 0xFFFF_FFFF])),
        7 | 8 => (0x08, taste.threshold(random) as u32 % random.pick(&[4, 4, 256, 1024])),
        _ => (4 * random.below(8), random.number() as u32),
    };
    (0x4000 + 32 * hart + offset, value)
}

pub fn register(random: &mut Random, taste: &Taste) -> Call {
    let (hart, file) = taste.file(random);
    let kind = taste.kind(random);
    let (word, bits) = taste.identity_word(random);
    let (select, value) = match random.below(20) {
        0..=3 => (0x70, delivery(random)),
        4..=6 => (0x72, taste.threshold(random)),
        7..=10 => (0x80 + 2 * word, bits),
        11..=17 => (0xC0 + 2 * word, bits),
        18 => (random.range(0x6C, 0x104), bits),
        _ => (random.pick(&SELECTS), odd_value(random)),
    };
    let select = if taste.is_bad(random) { random.pick(&SELECTS) } else { select };
    Call::Register { hart, file, kind, select, value }
}

fn odd_value(random: &mut Random) -> u64 {
    if random.percent(50) {
        random.number()
    } else {
        random.pick(&[0, 1, u64::MAX])
    }
}

fn delivery(random: &mut Random) -> u64 {
    let odd = [2, 3, 0x4000_0001, 0x1_0000_0000, 0x1_0000_0001, 0x1_4000_0000, 0x8000_0000, u64::MAX];
    match random.below(10) {
        0..=4 => 1,
        5 => 0,
        6 | 7 => 0x4000_0000,
        _ => random.pick(&odd),
    }
}

/// One access of a move, of any number, now and then barred.
pub fn movement(random: &mut Random, taste: &Taste) -> Call {
    let (mut old_hart, mut old_file) = taste.guest_file(random);
    let (mut new_hart, mut new_file) = taste.guest_file(random);
    if (old_hart, old_file) == (new_hart, new_file) && random.percent(90) {
        new_hart = (new_hart + 1) % 4;
    }
    match random.below(30) {
        0 => old_file = random.pick(&[0, 1, 5, 6, 0x1_0000_0002, u64::MAX]),
        1 => new_file = random.pick(&[0, 1, 5, 6, 0x1_0000_0003, u64::MAX]),
        2 => old_hart = random.pick(&[4, 5, 0x1_0000_0000, u64::MAX]),
        3 => new_hart = random.pick(&[4, 7, 0x1_0000_0001, u64::MAX]),
        4 => new_hart = old_hart,
        5 => new_file = old_file,
        _ => {}
    }
    let access = match random.below(10) {
        0 => random.pick(&[0, 0, 90, 90, 91, 256, 0x1_0000_0001, u64::MAX, 1, 89, 8, 9, 71, 72]),
        1..=3 => 8 + taste.source(random),
        4 | 5 => random.range(72, 89),
        6 => random.range(1, 8),
        _ => random.range(1, 89),
    };
    Call::Move { old_hart, old_file, new_hart, new_file, access }
}
