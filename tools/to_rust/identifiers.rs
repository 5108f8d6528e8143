//! Asks the toolchain's `unicode_ident` of every character, and prints where the answers change: a line `start N` for each character at which
//! being the start of an identifier begins or ends, and a line `continue N` for each at which continuing one does. What starts an
//! identifier continues it too.
#![tactic(auto)]

use std::alloc::AllocError;
use std::io::Print;
use unicode_ident::{is_xid_continue, is_xid_start};

fn main(rt: HostRuntime) -> Result<(), AllocError> {
    let mut starts = false;
    let mut continues = false;
    for number in 0..0x11_0001u32 {
        let (start, next) = match char::from_u32(number) {
            Some(character) if is_xid_continue(character) => (is_xid_start(character), true),
            _ => (false, false),
        };
        if start != starts {
            let _ = println!(&rt; "start {number}");
        }
        if next != continues {
            let _ = println!(&rt; "continue {number}");
        }
        starts = start;
        continues = next;
    }
    Ok(())
}
