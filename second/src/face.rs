//! The library's C face (include/varskumo.h) and a safe wrapper on lent blocks.

use crate::calls::Call;
use crate::lent::{Answer, Lent};

#[repr(C)]
struct VskAnswer {
    value: u64,
    count: u32,
    refusal: u32,
}

/// The header's prototypes, which second/build writes. One that is not called here is an error.
#[deny(dead_code)]
mod declared {
    use super::VskAnswer;
    include!(env!("DECLARED"));
}
use declared::*;

/// Makes a call of the library. The lengths lent are never more than the buffers have, which do not overlap.
pub fn call(call: &Call, lent: &mut Lent) -> Answer {
    assert!(lent.state_len <= lent.state.len() && lent.log_len <= lent.log.len());
    let (s, sl, l, ll) = (lent.state.as_mut_ptr(), lent.state_len, lent.log.as_mut_ptr(), lent.log_len);
    let saved = lent.saved.as_mut_ptr();
    let answer = unsafe {
        match *call {
            Call::Reset => vsk_reset(s, sl, l, ll),
            Call::Wire { wire, level } => vsk_wire(s, sl, l, ll, wire, level),
            Call::DomainRead { domain, address } => vsk_domain_read(s, sl, l, ll, domain, address),
            Call::DomainWrite { domain, address, value } => {
                vsk_domain_write(s, sl, l, ll, domain, address, value)
            }
            Call::PageRead { hart, file, address } => vsk_page_read(s, sl, l, ll, hart, file, address),
            Call::PageWrite { hart, file, address, value } => {
                vsk_page_write(s, sl, l, ll, hart, file, address, value)
            }
            Call::Register { hart, file, kind, select, value } => {
                vsk_register(s, sl, l, ll, hart, file, kind, select, value)
            }
            Call::Top { hart, file } => vsk_top(s, sl, l, ll, hart, file),
            Call::Claim { hart, file } => vsk_claim(s, sl, l, ll, hart, file),
            Call::Signals { hart } => vsk_signals(s, sl, l, ll, hart),
            Call::Move { old_hart, old_file, new_hart, new_file, access } => {
                vsk_move(s, sl, l, ll, old_hart, old_file, new_hart, new_file, access, saved)
            }
        }
    };
    Answer { refusal: answer.refusal, value: answer.value, count: answer.count }
}
