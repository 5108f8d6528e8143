//! Made by scripts/rust.sh from crates/lay_front/src/messages.rt, which is proved: change that.
//!
//! The messages of the command.
use crate::generated::lay_front::command::Status;
use crate::generated::lay_front::stop::Stop;
use crate::shims::Buffer;
use crate::generated::lay_io::{Failed, Sink};
use crate::generated::lay_token::{Place2, Refusal};
/// Writes to `err` one line that says why a run ended, or nothing on success. It writes the line in
/// pieces, and allocates nothing. A fault of `err` has no other effect.
pub fn tell<E: Sink>(ended: Result<(), Stop>, err: &mut E) {
    let stop = match ended {
        Err(stop) => stop,
        _ => {
            return;
        }
    };
    let _ = write_line(stop, err);
}
/// Writes to `err` that a write failed: the line, or a prefix of it if `err` fails too.
pub fn tell_failed_write<E: Sink>(err: &mut E) {
    tell(Err(Stop::WriteFailed), err);
}
/// Writes the line of a run that stopped.
fn write_line<E: Sink>(stop: Stop, err: &mut E) -> Result<(), Failed> {
    match stop {
        Stop::Usage => {
            err.write(
                b"usage: lay_fmt [--check | --map] [FILE] or lay_fmt --sample SEED --items N\n",
            )
        }
        Stop::ReadFailed => err.write(b"read failed\n"),
        Stop::TooLong => err.write(b"input is longer than 16777216 bytes\n"),
        Stop::Refused { refusal, place } => write_refusal(refusal, place, err),
        Stop::WriteFailed => err.write(b"write failed\n"),
        Stop::Differs => err.write(b"differs\n"),
        Stop::NoMemory => err.write(b"no memory\n"),
    }
}
/// Writes the line of a syntax error: its place and its cause.
fn write_refusal<
    E: Sink,
>(refusal: Refusal, place: Place2, err: &mut E) -> Result<(), Failed> {
    if let Err(Failed) = write_number(place.line, b":", err) {
        return Err(Failed);
    }
    write_number(place.column, reason(refusal), err)
}
/// Writes a number in decimal digits, and then a piece.
fn write_number<
    E: Sink,
>(number: usize, behind: &[u8], err: &mut E) -> Result<(), Failed> {
    let mut digits = Buffer::new();
    if let Err(Failed) = err.write(digits.format(number).as_bytes()) {
        return Err(Failed);
    }
    err.write(behind)
}
/// The message of a syntax error, without its place.
fn reason(refusal: Refusal) -> &'static [u8] {
    match refusal {
        Refusal::NotUtf8 { .. } => b": not UTF-8\n",
        Refusal::NoToken { .. } => b": no token\n",
        Refusal::Unbalanced { .. } => b": unbalanced delimiter\n",
        Refusal::NoItem { .. } => b": no item\n",
    }
}
