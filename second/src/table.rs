//! The table cases T1 to T11 (01, "Table cases") as calls, with what the paper says of some of them; and what M-101
//! of 02 says of in_clrip.

use crate::calls::{Call, Item};

/// A call, and the refusal and value that the paper gives, if it gives them.
pub type Case = (Item, Option<(u32, u64)>);

const READ: u64 = 0;
const WRITE: u64 = 1;

fn say(cases: &mut Vec<Case>, call: Call, expected: Option<(u32, u64)>) {
    cases.push((Item::Call(call), expected));
}

fn register(hart: u64, file: u64, kind: u64, select: u64, value: u64) -> Call {
    Call::Register { hart, file, kind, select, value }
}

fn page(hart: u64, file: u64, address: u64, value: u32) -> Call {
    Call::PageWrite { hart, file, address, value }
}

fn write(domain: u64, address: u64, value: u32) -> Call {
    Call::DomainWrite { domain, address, value }
}

fn read(domain: u64, address: u64) -> Call {
    Call::DomainRead { domain, address }
}

/// T1 to T5: the top of a file, and its page.
fn files(cases: &mut Vec<Case>) {
    say(cases, Call::Reset, Some((0, 0)));
    say(cases, page(0, 1, 0, 5), Some((0, 0)));
    say(cases, page(0, 1, 0, 9), Some((0, 0)));
    say(cases, register(0, 1, WRITE, 0xC0, 1 << 5 | 1 << 9), Some((0, 0)));
    // T1 to T3: thresholds 0, 5 and 6.
    say(cases, Call::Top { hart: 0, file: 1 }, Some((0, 0x0005_0005)));
    say(cases, register(0, 1, WRITE, 0x72, 5), Some((0, 0)));
    say(cases, Call::Top { hart: 0, file: 1 }, Some((0, 0)));
    say(cases, register(0, 1, WRITE, 0x72, 6), Some((0, 0)));
    say(cases, Call::Top { hart: 0, file: 1 }, Some((0, 0x0005_0005)));
    // T4: 256 at offset 0.
    say(cases, page(1, 2, 0, 256), Some((0, 0)));
    for word in 0..4 {
        say(cases, register(1, 2, READ, 0x80 + 2 * word, 0), Some((0, 0)));
    }
    // T5: 0x05000000 at offset 4.
    say(cases, page(1, 2, 4, 0x0500_0000), Some((0, 0)));
    say(cases, register(1, 2, READ, 0x80, 0), Some((0, 1 << 5)));
}

/// T6 and T7: topi with sources 7 and 8.
fn direct(cases: &mut Vec<Case>) {
    for source in [7, 8] {
        say(cases, write(0, 4 * source, 1), Some((0, 0)));
        say(cases, write(0, 0x3000 + 4 * source, 3), Some((0, 0)));
        say(cases, write(0, 0x1EDC, source as u32), Some((0, 0)));
        say(cases, write(0, 0x1CDC, source as u32), Some((0, 0)));
        say(cases, read(0, 0x4018), Some((0, 0x0007_0003)));
    }
}

/// T8: a child target, and its message 4648, which is the first word of the log.
fn child(cases: &mut Vec<Case>) {
    say(cases, write(0, 4 * 12, 0x400), Some((0, 0)));
    say(cases, write(1, 0x0000, 0x104), Some((0, 0)));
    say(cases, write(1, 4 * 12, 4), Some((0, 0)));
    say(cases, write(1, 0x3000 + 4 * 12, 0x0008_1028), Some((0, 0)));
    say(cases, read(1, 0x3000 + 4 * 12), Some((0, 0x0008_1028)));
    say(cases, write(1, 0x1EDC, 12), Some((0, 0)));
    say(cases, Call::Wire { wire: 12, level: 1 }, Some((0, 0)));
    say(cases, register(2, 2, READ, 0x80, 0), Some((0, 1 << 40)));
    // T9: domaincfg with IE and DM.
    say(cases, read(1, 0x0000), Some((0, 0x8000_0104)));
}

/// T10 and T11: claimi of hart 3, the end of the region, illegal and reserved select numbers.
fn edges(cases: &mut Vec<Case>) {
    say(cases, write(0, 0x3000 + 4 * 7, 3 << 18 | 3), Some((0, 0)));
    say(cases, read(0, 0x407C), Some((0, 0x0007_0003)));
    say(cases, read(0, 0x407C), Some((0, 0)));
    say(cases, read(0, 0x5000), Some((5, 0)));
    say(cases, write(0, 0x5000, 1), Some((5, 0)));
    say(cases, register(0, 0, READ, 0x81, 0), Some((6, 0)));
    say(cases, register(0, 0, READ, 0x71, 0), Some((0, 0)));
}

/// M-101: in_clrip reads rectified values, of sources 20 in word 0 and 40 in word 1.
fn inputs(cases: &mut Vec<Case>) {
    say(cases, Call::Reset, Some((0, 0)));
    // Level0 with a low wire, right after it got its mode; then with a high one.
    say(cases, write(0, 4 * 20, 7), Some((0, 0)));
    say(cases, read(0, 0x1D00), Some((0, 1 << 20)));
    say(cases, Call::Wire { wire: 20, level: 1 }, Some((0, 0)));
    say(cases, read(0, 0x1D00), Some((0, 0)));
    // Detached with a high wire.
    say(cases, write(0, 4 * 20, 1), Some((0, 0)));
    say(cases, read(0, 0x1D00), Some((0, 0)));
    // Delegated: the child's mode counts, and in the child alone.
    say(cases, write(0, 4 * 40, 0x400), Some((0, 0)));
    say(cases, write(1, 4 * 40, 5), Some((0, 0)));
    say(cases, read(0, 0x1D04), Some((0, 0)));
    say(cases, read(1, 0x1D04), Some((0, 1 << 8)));
    // Source 0 is none, and 4 in domaincfg is no mode.
    say(cases, write(0, 0, 4), Some((0, 0)));
    say(cases, read(0, 0x1D00), Some((0, 0)));
}

/// The table cases in their order.
pub fn cases() -> Vec<Case> {
    let mut cases = Vec::new();
    files(&mut cases);
    direct(&mut cases);
    child(&mut cases);
    edges(&mut cases);
    inputs(&mut cases);
    cases
}
