//! The call of lay.h over the cargo crate, so that C, Python and others need no toolchain but
//! cargo.
//!
//! The proved library, which lay_c makes, has the same call with the same answers. This one takes
//! more from its caller: a null pointer is one to no bytes, whatever length stands beside it, and
//! input and buffer may overlap, since the text is made before a byte is written. Each call has a
//! thread of its own with the stack that the deepest input needs, so the caller's may be small.
#![deny(unsafe_op_in_unsafe_fn)]

use froesaffron::{Cause, Error, format_bytes};
use std::{panic, ptr, slice};

/// `LAY_DONE`: the text was made.
const DONE: u32 = 0;
/// `LAY_NOT_UTF8`: the input is no UTF-8.
const NOT_UTF8: u32 = 1;
/// `LAY_NO_TOKEN`: at a place of the input there is no token.
const NO_TOKEN: u32 = 2;
/// `LAY_UNBALANCED`: a delimiter has no partner.
const UNBALANCED: u32 = 3;
/// `LAY_NO_ITEM`: no item that is accepted begins at the place.
const NO_ITEM: u32 = 4;
/// `LAY_NO_MEMORY`: memory was not found. It is the one status that says nothing of the input.
const NO_MEMORY: u32 = 5;

/// `lay_answer` of lay.h. Where the input is refused, `at` is the number of the byte, from 0, and
/// `line` and `column` are from 1; else the three are 0. `length` is that of the whole text in
/// bytes, and 0 where there is none.
#[repr(C)]
#[derive(Clone, Copy, Debug, PartialEq, Eq)]
pub struct LayAnswer {
    pub length: usize,
    pub at: usize,
    pub line: usize,
    pub column: usize,
    pub status: u32,
}

/// Formats the input, a file of Rust, and writes the front of its text to the buffer, as much as
/// fits. Where there is no text, nothing is written. A panic stays here: of such a fault of the
/// library, which is none that is known, the status is `LAY_NO_MEMORY`.
///
/// # Safety
///
/// `input` is null or has `input_length` bytes that can be read, and `buffer` is null or has
/// `buffer_length` bytes that can be written.
#[no_mangle]
pub unsafe extern "C" fn lay_format_slices(
    input: *const u8,
    input_length: usize,
    buffer: *mut u8,
    buffer_length: usize,
) -> LayAnswer {
    // No memory of a program is longer, and none may be lent as such.
    if input_length > isize::MAX as usize {
        return without_text(NO_MEMORY);
    }
    let source = match input.is_null() {
        true => &[],
        // SAFETY: it isn't null, has that many bytes by the caller's promise, and no more than a
        // slice may have.
        false => unsafe { slice::from_raw_parts(input, input_length) },
    };
    match panic::catch_unwind(|| format_bytes(source)) {
        Ok(Ok(text)) => {
            if !buffer.is_null() {
                let count = text.len().min(buffer_length);
                // SAFETY: both have as many bytes, the buffer by the caller's promise; the text is
                // memory of our own.
                unsafe { ptr::copy_nonoverlapping(text.as_ptr(), buffer, count) };
            }
            LayAnswer { length: text.len(), ..without_text(DONE) }
        }
        Ok(Err(error)) => refused(&error),
        Err(_) => without_text(NO_MEMORY),
    }
}

/// The input is refused, or memory was not found.
fn refused(error: &Error) -> LayAnswer {
    let status = match error.cause() {
        Cause::NotUtf8 => NOT_UTF8,
        Cause::NoToken => NO_TOKEN,
        Cause::Unbalanced => UNBALANCED,
        Cause::NoItem => NO_ITEM,
        // A source that is too long for a system with less than 64 bits, and what no source is
        // refused for.
        _ => return without_text(NO_MEMORY),
    };
    LayAnswer { length: 0, at: error.offset(), line: error.line(), column: error.column(), status }
}

/// An answer without a text and without a place.
fn without_text(status: u32) -> LayAnswer {
    LayAnswer { length: 0, at: 0, line: 0, column: 0, status }
}
