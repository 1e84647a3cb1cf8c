//! The second opinion for C, as `second_balance` and `second_mean_of`, with the promises that the header asks for.
#![allow(unsafe_code)]

use crate::logger::{mean_of, Mean};
use crate::{answer, Answer};
use core::slice::{from_raw_parts, from_raw_parts_mut};

/// # Safety
///
/// Neither pointer is null; the sheet can be read and the report written for as many bytes as are given; the two don't overlap.
#[no_mangle]
pub unsafe extern "C" fn second_balance(sheet: *const u8, sheet_length: usize, report: *mut u8, room: usize) -> Answer {
    answer(from_raw_parts(sheet, sheet_length), from_raw_parts_mut(report, room))
}

/// # Safety
///
/// The pointer is not null, and as many bytes as are given can be read there.
#[no_mangle]
pub unsafe extern "C" fn second_mean_of(readings: *const u8, length: usize) -> Mean {
    mean_of(from_raw_parts(readings, length))
}

extern "C" {
    fn abort() -> !;
}

/// Nothing here is known to panic. Where numbers that don't fit are told apart, one that doesn't ends the program.
#[panic_handler]
fn stop(_: &core::panic::PanicInfo) -> ! {
    unsafe { abort() }
}
