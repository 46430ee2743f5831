//! How much stack a call uses: it runs on a painted stack, and the paint that is left is counted.

use std::arch::asm;
use std::ffi::c_void;

const WORDS: usize = 128 * 1_024;
const PAINT: u64 = 0xA5A5_5A5A_C3C3_3C3C;

extern "C" fn enter<F: FnMut()>(work: *mut c_void) {
    // SAFETY: `used` passes a pointer to its own F.
    unsafe { (*(work as *mut F))() }
}

/// The bytes of stack that `work` writes, with those of the way into it.
pub fn used<F: FnMut()>(mut work: F) -> usize {
    let mut stack = vec![PAINT; WORDS];
    // SAFETY: the end of the vector, rounded down to 16 bytes as the calling convention asks.
    let top = unsafe { stack.as_mut_ptr().add(WORDS) } as usize & !15;
    let entry: extern "C" fn(*mut c_void) = enter::<F>;
    // SAFETY: the stack pointer is kept in r12, which a callee restores, and is put back after the
    // call; the new stack is larger than any call here uses, and lives through it.
    unsafe {
        asm!(
            "xchg rsp, r12",
            "call r13",
            "mov rsp, r12",
            inout("r12") top => _,
            inout("r13") entry as usize => _,
            inout("rdi") &raw mut work as usize => _,
            clobber_abi("C"),
        );
    }
    let untouched = stack.iter().take_while(|&&word| word == PAINT).count();
    (WORDS - untouched) * 8
}
