//! The numbers that one sequence likes: a few sources, identities and files, used so often that they collide,
//! with edges and bad numbers among them.

use crate::random::Random;

/// Identities at the edges of words and of the range.
const EDGE_IDENTITIES: [u64; 12] = [0, 1, 31, 32, 63, 64, 127, 128, 191, 192, 255, 256];
const EDGE_SOURCES: [u64; 6] = [1, 2, 31, 32, 62, 63];

pub struct Taste {
    pub sources: Vec<u64>,
    pub identities: Vec<u64>,
    /// Pairs of hart and file; the last two are guest files.
    pub files: Vec<(u64, u64)>,
    pub harts: Vec<u64>,
    /// Whether domains are mostly set to send messages, rather than to deliver directly.
    pub messages: bool,
    /// How many of a thousand numbers are bad.
    pub bad: u64,
}

impl Taste {
    pub fn new(random: &mut Random) -> Taste {
        let mut sources: Vec<u64> = (0..random.range(2, 5)).map(|_| random.range(1, 63)).collect();
        sources.push(random.pick(&EDGE_SOURCES));
        let mut identities: Vec<u64> = (0..random.range(2, 5)).map(|_| random.range(1, 255)).collect();
        identities.push(random.pick(&EDGE_IDENTITIES));
        let harts: Vec<u64> = (0..random.range(1, 3)).map(|_| random.below(4)).collect();
        let mut files: Vec<(u64, u64)> = harts.iter().flat_map(|hart| [(*hart, 0), (*hart, 1)]).collect();
        files.push((random.pick(&harts), random.range(2, 4)));
        files.push((random.below(4), random.range(2, 4)));
        let bad = random.pick(&[0, 5, 10, 60, 300]);
        Taste { sources, identities, files, harts, messages: random.percent(65), bad }
    }

    pub fn is_bad(&self, random: &mut Random) -> bool {
        random.below(1000) < self.bad
    }

    /// A number that names nothing where numbers up to `last` do: just beyond, or right in its low 32 bits
    /// only.
    fn bad_number(&self, random: &mut Random, last: u64) -> u64 {
        let inside = random.below(last + 1);
        random.pick(&[
            last + 1,
            last + 2,
            inside + (1 << 32),
            inside + (1 << 63),
            u64::MAX,
            inside + 256 + last,
        ])
    }

    pub fn hart(&self, random: &mut Random) -> u64 {
        if self.is_bad(random) {
            return self.bad_number(random, 3);
        }
        if random.percent(75) {
            random.pick(&self.harts)
        } else {
            random.below(4)
        }
    }

    pub fn file(&self, random: &mut Random) -> (u64, u64) {
        let (hart, file) = self.good_file(random);
        let hart = if self.is_bad(random) { self.bad_number(random, 3) } else { hart };
        let file = if self.is_bad(random) { self.bad_number(random, 4) } else { file };
        (hart, file)
    }

    fn good_file(&self, random: &mut Random) -> (u64, u64) {
        if random.percent(85) {
            random.pick(&self.files)
        } else {
            (random.below(4), random.below(5))
        }
    }

    pub fn guest_file(&self, random: &mut Random) -> (u64, u64) {
        let liked = &self.files[self.files.len() - 2..];
        if random.percent(80) {
            random.pick(liked)
        } else {
            (random.below(4), random.range(2, 4))
        }
    }

    pub fn domain(&self, random: &mut Random) -> u64 {
        if self.is_bad(random) {
            self.bad_number(random, 1)
        } else {
            random.below(2)
        }
    }

    pub fn source(&self, random: &mut Random) -> u64 {
        if random.percent(88) {
            random.pick(&self.sources)
        } else {
            random.range(1, 63)
        }
    }

    pub fn wire(&self, random: &mut Random) -> u64 {
        if self.is_bad(random) {
            return if random.percent(30) { 0 } else { self.bad_number(random, 63) };
        }
        self.source(random)
    }

    pub fn level(&self, random: &mut Random) -> u64 {
        if self.is_bad(random) {
            self.bad_number(random, 1)
        } else {
            random.below(2)
        }
    }

    pub fn kind(&self, random: &mut Random) -> u64 {
        if self.is_bad(random) {
            self.bad_number(random, 3)
        } else {
            random.below(4)
        }
    }

    /// An identity, mostly a liked one, sometimes an edge or a neighbour.
    pub fn identity(&self, random: &mut Random) -> u64 {
        match random.below(10) {
            0 => random.below(256),
            1 => random.pick(&EDGE_IDENTITIES),
            _ => random.pick(&self.identities),
        }
    }

    /// A threshold: at, just below and just above what is liked.
    pub fn threshold(&self, random: &mut Random) -> u64 {
        let near = random.pick(&self.identities) + random.below(3);
        random.pick(&[0, 0, near, near, near.saturating_sub(1), 1, 255, 256, 257, near + 0x1_0000_0100])
    }

    /// A number as a source number register is given it.
    pub fn source_number(&self, random: &mut Random) -> u32 {
        let source = self.source(random) as u32;
        match random.below(10) {
            0 => random.pick(&[0, 64, 65, 255, u32::MAX, source | 1 << 16, source | 1 << 8, source << 24]),
            _ => source,
        }
    }

    /// A mask of sources of word k, or of anything.
    pub fn mask(&self, random: &mut Random) -> u32 {
        match random.below(10) {
            0 => u32::MAX,
            1 => random.number() as u32,
            2 => 1,
            3 => 0,
            _ => (0..random.range(1, 3)).fold(0, |mask, _| mask | 1 << (self.source(random) % 32)),
        }
    }

    /// A word of a file's pending or enable bits, and 64 bits for it: mostly liked identities of that word.
    pub fn identity_word(&self, random: &mut Random) -> (u64, u64) {
        let identity = self.identity(random) % 256;
        let liked = self.identities.iter().filter(|i| **i / 64 == identity / 64);
        let value = match random.below(16) {
            0 => u64::MAX,
            1 => random.number() & random.number() & random.number(),
            2 => 1,
            3 => 0,
            4..=7 => liked.fold(0, |word, i| word | 1 << (i % 64)),
            _ => 1 << (identity % 64),
        };
        (identity / 64, value)
    }
}
