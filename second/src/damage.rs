//! Damaged lines of a record: each way in which a line can be wrong by docs/RECORD.md, and odd lines that can
//! be read.

use crate::calls::Call;
use crate::draw;
use crate::random::Random;
use crate::taste::Taste;

/// A line as its fields: the name of a call, then its numbers.
struct Line {
    fields: Vec<Vec<u8>>,
}

impl Line {
    fn of(call: &Call) -> Line {
        let (name, numbers) = call.fields();
        let numbers = numbers.iter().map(|number| number.to_string().into_bytes());
        Line { fields: std::iter::once(name.into()).chain(numbers).collect() }
    }

    fn text(&self) -> Vec<u8> {
        self.fields.join(&b'\t')
    }

    fn name(&mut self) -> &mut Vec<u8> {
        &mut self.fields[0]
    }

    /// One of its numbers.
    fn number(&mut self, random: &mut Random) -> &mut Vec<u8> {
        let place = random.range(1, self.fields.len() as u64 - 1) as usize;
        &mut self.fields[place]
    }

    fn last(&mut self) -> &mut Vec<u8> {
        self.fields.last_mut().expect("a line has a name")
    }
}

/// What a line has to have for a damage: nothing, a number, or a word of 32 bits at its end.
#[derive(Clone, Copy, PartialEq)]
enum Needs {
    Nothing,
    Number,
    Word,
}

type Damage = fn(&mut Random, Line) -> Vec<u8>;

/// Leading zeros until the line has so many bytes.
fn padded(random: &mut Random, mut line: Line, length: usize) -> Vec<u8> {
    if random.percent(20) {
        line.fields[1] = u64::MAX.to_string().into();
    }
    let zeros = length - line.text().len();
    line.number(random).splice(..0, vec![b'0'; zeros]);
    line.text()
}

/// A line that would be two if it were cut after so many bytes.
fn with_a_tail(random: &mut Random, line: Line, length: usize) -> Vec<u8> {
    let tail = random.pick(&["wire\t5\t1", "signals\t0", "reset", "top\t1\t2", "5"]);
    let mut text = padded(random, line, length);
    text.extend(tail.bytes());
    text
}

const LENGTHS: [(Needs, Damage); 8] = [
    // Can be read.
    (Needs::Number, |random, line| padded(random, line, 200)),
    (Needs::Number, |random, line| padded(random, line, 201)),
    (Needs::Number, |random, line| padded(random, line, 1_000)),
    (Needs::Number, |random, line| with_a_tail(random, line, 200)),
    (Needs::Number, |random, line| with_a_tail(random, line, 201)),
    (Needs::Number, |random, line| with_a_tail(random, line, 256)),
    (Needs::Nothing, |_, _| vec![]),
    (Needs::Nothing, |random, _| (0..random.range(1, 400)).map(|_| any_byte(random)).collect()),
];

/// A line that is longer than what a program reads at once.
const HUGE: (Needs, Damage) = (Needs::Number, |random, line| match random.below(2) {
    0 => padded(random, line, 70_000),
    _ => with_a_tail(random, line, 70_000),
});

/// Any byte but LF.
fn any_byte(random: &mut Random) -> u8 {
    match random.below(256) as u8 {
        b'\n' => b'\t',
        byte => byte,
    }
}

/// Puts bytes anywhere into a line.
fn inserted(random: &mut Random, line: &Line, bytes: &[u8]) -> Vec<u8> {
    let mut text = line.text();
    let place = random.below(text.len() as u64 + 1) as usize;
    text.splice(place..place, bytes.iter().copied());
    text
}

/// One tab becomes something else.
fn parted(random: &mut Random, line: Line, by: &[u8]) -> Vec<u8> {
    let place = random.range(1, line.fields.len() as u64 - 1) as usize;
    [line.fields[..place].join(&b'\t'), line.fields[place..].join(&b'\t')].join(by)
}

fn ended(line: &Line, by: &[u8]) -> Vec<u8> {
    [&line.text(), by].concat()
}

const BYTES: [(Needs, Damage); 13] = [
    (Needs::Nothing, |_, line| ended(&line, b"\r")),
    (Needs::Nothing, |random, line| inserted(random, &line, b"\r")),
    (Needs::Nothing, |_, line| ended(&line, b"\0")),
    (Needs::Nothing, |random, line| inserted(random, &line, b"\0")),
    (Needs::Nothing, |random, line| {
        let byte = random.range(0x80, 0xFF) as u8;
        inserted(random, &line, &[byte])
    }),
    (Needs::Nothing, |random, line| inserted(random, &line, b" ")),
    (Needs::Nothing, |_, line| ended(&line, b" ")),
    (Needs::Nothing, |_, line| ended(&line, b"\t")),
    (Needs::Nothing, |_, line| [b"\t", &line.text()[..]].concat()),
    (Needs::Number, |random, line| parted(random, line, b"\t\t")),
    (Needs::Number, |random, line| {
        let by = random.pick(&[" ", ",", "\u{B}", "\u{A0}", " \t", "\t ", "\r\t", ""]);
        parted(random, line, by.as_bytes())
    }),
    (Needs::Nothing, |random, line| {
        let comment = random.pick(&["# ", "#", "// ", "\u{FEFF}"]);
        [comment.as_bytes(), &line.text()].concat()
    }),
    (Needs::Nothing, |_, line| ended(&line, b"\t# a wire")),
];

/// A number becomes another text.
fn renumbered(random: &mut Random, mut line: Line, text: &str) -> Vec<u8> {
    *line.number(random) = text.into();
    line.text()
}

/// A number gets something before it.
fn prefixed(random: &mut Random, mut line: Line, by: &str) -> Vec<u8> {
    line.number(random).splice(..0, by.bytes());
    line.text()
}

const NUMBERS: [(Needs, Damage); 14] = [
    (Needs::Number, |random, line| prefixed(random, line, "+")),
    (Needs::Number, |random, line| prefixed(random, line, "-")),
    (Needs::Number, |random, line| {
        let hex = random.pick(&["0x", "0X", "x", "$", "a"]);
        prefixed(random, line, hex)
    }),
    // The bytes before and after the digits.
    (Needs::Number, |random, line| prefixed(random, line, "/")),
    (Needs::Number, |random, line| prefixed(random, line, ":")),
    (Needs::Number, |random, line| {
        let odd = ["1.0", "1e1", "1_0", "1,0", "1u", "1f", "\u{663}", "\u{FF13}", "0b1", "one"];
        let text = random.pick(&odd);
        renumbered(random, line, text)
    }),
    (Needs::Number, |random, line| renumbered(random, line, "")),
    // Can be read.
    (Needs::Number, |random, line| {
        let zeros = "0".repeat(random.range(1, 30) as usize);
        prefixed(random, line, &zeros)
    }),
    // Too large by what the last digit adds, by the product before it, and by far.
    (Needs::Number, |random, line| {
        let text = ((1_u128 << 64) + u128::from(random.below(6))).to_string();
        renumbered(random, line, &text)
    }),
    (Needs::Number, |random, line| {
        let text = random.pick(&["18446744073709551620", "99999999999999999999", "184467440737095516150"]);
        renumbered(random, line, text)
    }),
    (Needs::Number, |random, line| {
        let digits: String = (0..random.range(21, 120)).map(|_| random.pick(&['1', '0', '9'])).collect();
        renumbered(random, line, &digits)
    }),
    // The greatest number can be read, as can the greatest word, two further down.
    (Needs::Number, |_, mut line| {
        line.fields[1] = u64::MAX.to_string().into();
        line.text()
    }),
    (Needs::Word, |random, mut line| {
        *line.last() = ((1_u64 << 32) + random.below(256)).to_string().into();
        line.text()
    }),
    (Needs::Word, |_, mut line| {
        *line.last() = u32::MAX.to_string().into();
        line.text()
    }),
];

/// The line with another name.
fn renamed(mut line: Line, name: Vec<u8>) -> Vec<u8> {
    *line.name() = name;
    line.text()
}

const NAMES: [(Needs, Damage); 8] = [
    (Needs::Nothing, |random, line| {
        let names = ["vsk_wire", "poke", "lengths", "saved", "mark", "read", "write", "wires", "quit", "0"];
        let name = random.pick(&names);
        renamed(line, name.into())
    }),
    (Needs::Nothing, |_, line| {
        let name = line.fields[0].to_ascii_uppercase();
        renamed(line, name)
    }),
    (Needs::Nothing, |_, mut line| {
        line.name()[0].make_ascii_uppercase();
        line.text()
    }),
    (Needs::Nothing, |random, mut line| {
        let length = random.below(line.name().len() as u64) as usize;
        line.name().truncate(length);
        line.text()
    }),
    (Needs::Nothing, |random, mut line| {
        let byte = random.pick(b"s_e1");
        line.name().push(byte);
        line.text()
    }),
    (Needs::Number, |_, mut line| {
        line.fields.remove(0);
        line.text()
    }),
    // One number too many, and one too few.
    (Needs::Nothing, |random, line| ended(&line, if random.percent(50) { b"\t0" } else { b"\t1" })),
    (Needs::Number, |_, mut line| {
        line.fields.pop();
        line.text()
    }),
];

/// The names of the calls.
const CALLS: [&str; 11] = [
    "reset", "wire", "domain_read", "domain_write", "page_read", "page_write", "register", "top", "claim",
    "signals", "move",
];

/// The damages in rounds, each in an order of its own. A round has every damage once, and eleven rounds have it
/// with every call that fits.
pub struct Damages {
    damages: Vec<(Needs, Damage)>,
    left: Vec<usize>,
    rounds: usize,
}

impl Damages {
    pub fn new() -> Damages {
        let damages = [&LENGTHS[..], &BYTES, &NUMBERS, &NAMES, &[HUGE]].concat();
        Damages { damages, left: Vec::new(), rounds: 0 }
    }

    /// The longest line, which is the last damage, is in one round of sixteen only.
    fn refill(&mut self) {
        self.left = (0..self.damages.len()).collect();
        if self.rounds % 16 > 0 {
            self.left.pop();
        }
        self.rounds += 1;
    }

    /// The next damaged line, of a call of its own.
    pub fn line(&mut self, random: &mut Random, taste: &Taste) -> Vec<u8> {
        if self.left.is_empty() {
            self.refill();
        }
        let place = random.below(self.left.len() as u64) as usize;
        let number = self.left.swap_remove(place);
        let (needs, damage) = self.damages[number];
        let name = CALLS[(number + self.rounds) % CALLS.len()];
        let line = Line::of(&fitting(random, taste, needs, name));
        damage(random, line)
    }
}

/// Whether a call of this name has what a damage needs.
fn has(name: &str, needs: Needs) -> bool {
    match needs {
        Needs::Nothing => true,
        Needs::Number => name != "reset",
        Needs::Word => matches!(name, "domain_write" | "page_write"),
    }
}

/// A call of this name, or of another if it does not have what the damage needs.
fn fitting(random: &mut Random, taste: &Taste, needs: Needs, name: &str) -> Call {
    let fits = has(name, needs);
    loop {
        let call = draw::any(random, taste);
        let (drawn, _) = call.fields();
        if has(drawn, needs) && (drawn == name) == fits {
            return call;
        }
    }
}
