//! Tells the crate what the compiler's library has: `core_error`, the trait `Error` in `core`, which
//! before only `std` has; and `fchown`, by which a file is given to another user.
use std::process::Command;
use std::{env, str};

/// What is told, and the first Rust 1 that has it.
const FIRST: [(&str, u32); 2] = [("core_error", 81), ("fchown", 73)];

fn main() {
    println!("cargo:rerun-if-changed=build.rs");
    for (name, first) in FIRST {
        println!("cargo:rustc-check-cfg=cfg({name})");
        if minor_version() >= Some(first) {
            println!("cargo:rustc-cfg={name}");
        }
    }
}

/// Of `rustc 1.N.M ..` the N.
fn minor_version() -> Option<u32> {
    let rustc = env::var_os("RUSTC")?;
    let said = Command::new(rustc).arg("--version").output().ok()?.stdout;
    str::from_utf8(&said)
        .ok()?
        .strip_prefix("rustc 1.")?
        .split('.')
        .next()?
        .parse()
        .ok()
}
