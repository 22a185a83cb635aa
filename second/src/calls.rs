//! The calls as numbers, and their text: one record a line, fields parted by one tab.

/// A call of the C face, without its blocks.
#[derive(Clone, Copy, PartialEq, Eq, Debug)]
pub enum Call {
    Reset,
    Wire {
        wire: u64,
        level: u64,
    },
    DomainRead {
        domain: u64,
        address: u64,
    },
    DomainWrite {
        domain: u64,
        address: u64,
        value: u32,
    },
    PageRead {
        hart: u64,
        file: u64,
        address: u64,
    },
    PageWrite {
        hart: u64,
        file: u64,
        address: u64,
        value: u32,
    },
    Register {
        hart: u64,
        file: u64,
        kind: u64,
        select: u64,
        value: u64,
    },
    Top {
        hart: u64,
        file: u64,
    },
    Claim {
        hart: u64,
        file: u64,
    },
    Signals {
        hart: u64,
    },
    Move {
        old_hart: u64,
        old_file: u64,
        new_hart: u64,
        new_file: u64,
        access: u64,
    },
}

/// A line of a sequence: a call, or a change of what the calls are lent.
#[derive(Clone, Copy, PartialEq, Eq, Debug)]
pub enum Item {
    Call(Call),
    /// State word I becomes V.
    Poke {
        index: usize,
        value: u32,
    },
    /// The lengths with which both blocks are lent from here on.
    Lengths {
        state: usize,
        log: usize,
    },
    /// Number I of the move's record becomes V; never in recorded cases.
    Saved {
        index: usize,
        value: u64,
    },
    /// Log word I becomes V; never in recorded cases.
    Mark {
        index: usize,
        value: u32,
    },
}

impl Call {
    /// The call's name and its numbers.
    pub fn fields(&self) -> (&'static str, Vec<u64>) {
        match *self {
            Call::Reset => ("reset", vec![]),
            Call::Wire { wire, level } => ("wire", vec![wire, level]),
            Call::DomainRead { domain, address } => ("domain_read", vec![domain, address]),
            Call::DomainWrite { domain, address, value } => {
                ("domain_write", vec![domain, address, value.into()])
            }
            Call::PageRead { hart, file, address } => ("page_read", vec![hart, file, address]),
            Call::PageWrite { hart, file, address, value } => {
                ("page_write", vec![hart, file, address, value.into()])
            }
            Call::Register { hart, file, kind, select, value } => {
                ("register", vec![hart, file, kind, select, value])
            }
            Call::Top { hart, file } => ("top", vec![hart, file]),
            Call::Claim { hart, file } => ("claim", vec![hart, file]),
            Call::Signals { hart } => ("signals", vec![hart]),
            Call::Move { old_hart, old_file, new_hart, new_file, access } => {
                ("move", vec![old_hart, old_file, new_hart, new_file, access])
            }
        }
    }
}

impl Item {
    /// The item as a line, without its end.
    pub fn line(&self) -> String {
        let (name, numbers) = match *self {
            Item::Call(ref call) => call.fields(),
            Item::Poke { index, value } => ("poke", vec![index as u64, value.into()]),
            Item::Lengths { state, log } => ("lengths", vec![state as u64, log as u64]),
            Item::Saved { index, value } => ("saved", vec![index as u64, value]),
            Item::Mark { index, value } => ("mark", vec![index as u64, value.into()]),
        };
        let mut line = name.to_string();
        for number in numbers {
            line.push('\t');
            line.push_str(&number.to_string());
        }
        line
    }
}
