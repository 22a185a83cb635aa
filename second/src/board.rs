//! The board: what each call refuses, answers and changes (01, "Calls and their refusals").

use crate::calls::Call;
use crate::domain::Message;
use crate::file::{register_of, Delivery, Kind, MessageFile};
use crate::movement::{self, Place, Saved};
use crate::source::Name;
use crate::wired::Wired;

/// How long a file's page is, and how long a domain's region.
const PAGE_BYTES: u64 = 4096;
const REGION_BYTES: u64 = 20480;

#[derive(Clone, PartialEq, Eq, Debug)]
pub struct Board {
    /// Four harts with five files each: 0 machine, 1 supervisor, 2 to 4 guest files.
    pub files: Vec<Vec<MessageFile>>,
    pub wired: Wired,
}

fn name_of(domain: u64) -> Name {
    if domain == 0 {
        Name::Machine
    } else {
        Name::Supervisor
    }
}

fn no_such_file(hart: u64, file: u64) -> bool {
    hart > 3 || file > 4
}

fn bad_address(address: u64, bytes: u64) -> bool {
    address % 4 != 0 || address >= bytes
}

impl Board {
    /// After a reset no wire is high, and every number is 0 but for delivery, 0x40000000 in files 0 and 1.
    pub fn at_reset() -> Board {
        let hart: Vec<MessageFile> = (0..5).map(|file| MessageFile::at_reset(file > 1)).collect();
        Board { files: vec![hart; 4], wired: Wired::at_reset() }
    }

    pub fn file(&mut self, place: Place) -> &mut MessageFile {
        &mut self.files[place.hart as usize][place.file as usize]
    }

    fn file_at(&mut self, hart: u64, file: u64) -> &mut MessageFile {
        &mut self.files[hart as usize][file as usize]
    }

    /// Refusal 4: a number of the call is no hart, file, domain, wire, level or kind that there is, or the
    /// access is barred. The numbers count in all 64 bits.
    fn no_such(&self, call: &Call) -> bool {
        match *call {
            Call::Reset => false,
            Call::Wire { wire, level } => !Wired::is_wire(wire) || level > 1,
            Call::DomainRead { domain, .. } | Call::DomainWrite { domain, .. } => domain > 1,
            Call::PageRead { hart, file, .. } | Call::PageWrite { hart, file, .. } => {
                no_such_file(hart, file)
            }
            Call::Register { hart, file, kind, .. } => {
                no_such_file(hart, file) || Kind::named(kind).is_none()
            }
            Call::Top { hart, file } | Call::Claim { hart, file } => no_such_file(hart, file),
            Call::Signals { hart } => hart > 3,
            Call::Move { old_hart, old_file, new_hart, new_file, access } => {
                let old = Place { hart: old_hart, file: old_file };
                let new = Place { hart: new_hart, file: new_file };
                movement::barred(self, old, new, access)
            }
        }
    }

    /// Refusal 5: at the address begins no word of the page or region.
    fn outside(&self, call: &Call) -> bool {
        match *call {
            Call::DomainRead { address, .. } | Call::DomainWrite { address, .. } => {
                bad_address(address, REGION_BYTES)
            }
            Call::PageRead { address, .. } | Call::PageWrite { address, .. } => {
                bad_address(address, PAGE_BYTES)
            }
            _ => false,
        }
    }

    /// Refusal 6: the select number names no register.
    fn illegal(&self, call: &Call) -> bool {
        matches!(*call, Call::Register { select, .. } if register_of(select).is_none())
    }

    /// Of several refusals the least is answered. Refusals 1 to 3 are tested before.
    pub fn refusal(&self, call: &Call) -> Option<u32> {
        let tests = [(4, self.no_such(call)), (5, self.outside(call)), (6, self.illegal(call))];
        tests.iter().find(|(_, applies)| *applies).map(|(number, _)| *number)
    }

    /// Makes a call that is not refused: its value, and the messages that it sent, in order.
    pub fn perform(&mut self, call: &Call, saved: &mut Saved) -> (u64, Vec<Message>) {
        let mut sent = Vec::new();
        let value = self.change(call, saved, &mut sent);
        // Whatever the call was, both domains then send; if nothing changed there is nothing to send.
        sent.extend(self.wired.send());
        for message in &sent {
            self.file_at(message.hart.into(), message.file.into()).arrive(message.identity);
        }
        (value, sent)
    }

    /// The call's own change and value, which is 0 for a write, a wire, a reset and an access of a move.
    fn change(&mut self, call: &Call, saved: &mut Saved, sent: &mut Vec<Message>) -> u64 {
        match *call {
            Call::Reset => *self = Board::at_reset(),
            Call::Wire { wire, level } => self.wired.set_wire(wire as u32, level == 1),
            Call::DomainRead { domain, address } => return self.wired.read(name_of(domain), address).into(),
            Call::DomainWrite { domain, address, value } => {
                sent.extend(self.wired.write(name_of(domain), address, value));
            }
            // A page has nothing to read but 0.
            Call::PageRead { .. } => {}
            Call::PageWrite { hart, file, address, value } => {
                self.file_at(hart, file).page_write(address, value)
            }
            Call::Register { hart, file, kind, select, value } => {
                if let (Some(kind), Some(register)) = (Kind::named(kind), register_of(select)) {
                    return self.file_at(hart, file).access(kind, register, value);
                }
            }
            Call::Top { hart, file } => return self.file_at(hart, file).top(),
            Call::Claim { hart, file } => return self.file_at(hart, file).claim(),
            Call::Signals { hart } => return self.signals(hart as usize),
            Call::Move { old_hart, old_file, new_hart, new_file, access } => {
                let old = Place { hart: old_hart, file: old_file };
                let new = Place { hart: new_hart, file: new_file };
                movement::access(self, old, new, access, saved);
            }
        }
        0
    }

    /// Each file of the hart is the bit of its own number.
    fn signals(&self, hart: usize) -> u64 {
        (0..5).filter(|file| self.file_signals(hart, *file)).fold(0, |bits, file| bits | 1 << file)
    }

    /// With delivery 0x40000000 file 0 signals for the machine domain and file 1 for the child. Any other
    /// signal is the file's own.
    fn file_signals(&self, hart: usize, number: usize) -> bool {
        let file = &self.files[hart][number];
        match file.delivery {
            Delivery::Wired => self.wired.domain(name_of(number as u64)).signals(hart),
            _ => file.signals(),
        }
    }
}
