//! The optimiser's barrier: `std::hint::black_box`, which Rust 1.63 doesn't have.

use std::arch::asm;

/// The value as it is; the compiler has to take it that the value was read, and that it may be another one now.
#[inline(always)]
pub fn black_box<T>(mut value: T) -> T {
    // SAFETY: there is no instruction, and so nothing is read or written.
    unsafe { asm!("/* {0} */", in(reg) &mut value as *mut T, options(nostack, preserves_flags)) };
    value
}
