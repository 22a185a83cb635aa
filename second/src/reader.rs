//! A record as docs/RECORD.md has it: its bytes as lines, and a line as a call, if it can be read.

use crate::calls::Call;

/// The most bytes that a line can have and be read, its end not counted.
const LONGEST: usize = 200;

/// The lines of a record, each without its end.
pub struct Lines<'a> {
    rest: &'a [u8],
}

pub fn lines(record: &[u8]) -> Lines<'_> {
    Lines { rest: record }
}

impl<'a> Iterator for Lines<'a> {
    type Item = &'a [u8];

    /// The bytes up to the next LF. After the last LF there is a line if there is a byte.
    fn next(&mut self) -> Option<&'a [u8]> {
        if self.rest.is_empty() {
            return None;
        }
        let length = self.rest.iter().position(|byte| *byte == b'\n').unwrap_or(self.rest.len());
        let line = &self.rest[..length];
        self.rest = self.rest.get(length + 1..).unwrap_or_default();
        Some(line)
    }
}

/// One or more digits, and a value below 2^64.
fn number(field: &[u8]) -> Option<u64> {
    if field.is_empty() {
        return None;
    }
    let mut value: u64 = 0;
    for byte in field {
        let digit = u64::from(byte.checked_sub(b'0').filter(|digit| *digit <= 9)?);
        value = value.checked_mul(10)?.checked_add(digit)?;
    }
    Some(value)
}

/// A number where the call takes a word of 32 bits.
fn word(number: u64) -> Option<u32> {
    u32::try_from(number).ok()
}

/// The call that a line says, or nothing if the line cannot be read: its row is found by the name and by how
/// many numbers there are.
pub fn call(line: &[u8]) -> Option<Call> {
    if line.len() > LONGEST {
        return None;
    }
    let mut fields = line.split(|byte| *byte == b'\t');
    let name = fields.next()?;
    let numbers: Vec<u64> = fields.map(number).collect::<Option<_>>()?;
    Some(match (name, &numbers[..]) {
        (b"reset", &[]) => Call::Reset,
        (b"wire", &[wire, level]) => Call::Wire { wire, level },
        (b"domain_read", &[domain, address]) => Call::DomainRead { domain, address },
        (b"domain_write", &[domain, address, value]) => {
            Call::DomainWrite { domain, address, value: word(value)? }
        }
        (b"page_read", &[hart, file, address]) => Call::PageRead { hart, file, address },
        (b"page_write", &[hart, file, address, value]) => {
            Call::PageWrite { hart, file, address, value: word(value)? }
        }
        (b"register", &[hart, file, kind, select, value]) => {
            Call::Register { hart, file, kind, select, value }
        }
        (b"top", &[hart, file]) => Call::Top { hart, file },
        (b"claim", &[hart, file]) => Call::Claim { hart, file },
        (b"signals", &[hart]) => Call::Signals { hart },
        (b"move", &[old_hart, old_file, new_hart, new_file, access]) => {
            Call::Move { old_hart, old_file, new_hart, new_file, access }
        }
        _ => return None,
    })
}
