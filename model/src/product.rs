//! The product's exports (`include/gozalvek.h`), safe to call: every length is
//! that of a slice. `calls` needs 4 MB of stack, more than a thread has here
//! unless it is asked for.

use crate::numbers::{Given, Written};

mod exported {
    extern "C" {
        pub fn gozalvek_calls(
            sheet: *const u8,
            sheet_length: usize,
            places: u64,
            calls: *const u64,
            calls_length: usize,
            text: *const u8,
            text_length: usize,
            answers: *mut u64,
            answers_length: usize,
            held: *mut u64,
            held_length: usize,
            amounts: *mut i64,
            amounts_length: usize,
            postings: *mut i64,
            postings_length: usize,
            line: *mut u64,
            count: *mut u64,
        ) -> u64;

        pub fn gozalvek_statement(
            text: *const u8,
            text_length: usize,
            out: *mut u8,
            out_length: usize,
        ) -> usize;
    }
}

/// Room for every statement.
pub const STATEMENT: usize = 32_256;

/// Carries out calls on the empty book. Nothing is cleared before: what is
/// not written stays.
pub fn calls(given: &Given, written: &mut Written) {
    let Given {
        sheet,
        places,
        calls,
        text,
    } = *given;
    // Each pointer is that of a slice, with its length; what is written is
    // borrowed for itself alone.
    written.number = unsafe {
        exported::gozalvek_calls(
            sheet.as_ptr(),
            sheet.len(),
            places,
            calls.as_ptr(),
            calls.len(),
            text.as_ptr(),
            text.len(),
            written.answers.as_mut_ptr(),
            written.answers.len(),
            written.held.as_mut_ptr(),
            written.held.len(),
            written.amounts.as_mut_ptr(),
            written.amounts.len(),
            written.postings.as_mut_ptr(),
            written.postings.len(),
            &mut written.line,
            &mut written.count,
        )
    };
}

/// Writes the statement of a day's text into `out`, as far as it has room;
/// gives what is written.
pub fn statement<'o>(text: &[u8], out: &'o mut [u8]) -> &'o [u8] {
    // As above; no more is written than `out` has room for.
    let length = unsafe {
        exported::gozalvek_statement(text.as_ptr(), text.len(), out.as_mut_ptr(), out.len())
    };
    &out[..length]
}
