//! Calls on a painted stack: how far down the paint is gone says what a call takes.
//! `examples/stack.rs` and `tests/stack.rs` measure by it.

use std::arch::asm;

const PAINT: u64 = 0x5EA1_F1A7_E5EA_F1A7;

/// The bytes of stack that a call takes, on a painted one of so many bytes. They
/// have to be more than it takes: it would write below them, and that is seen only
/// when it has.
pub fn depth<T>(bytes: usize, call: extern "C" fn(&mut T), lent: &mut T) -> usize {
    let words = bytes / 8;
    let mut stack = vec![PAINT; words];
    // A stack grows downward, from behind the last word.
    let top = stack.as_mut_ptr_range().end as usize & !15;
    // SAFETY: the call runs on memory that is ours and large enough, as is
    // looked at below; the stack pointer is 16-aligned there, is kept in a
    // register that a callee keeps, and comes back before anything else.
    #[cfg(target_arch = "x86_64")]
    unsafe {
        asm!(
            "mov r12, rsp",
            "mov rsp, {top}",
            "call {call}",
            "mov rsp, r12",
            top = in(reg) top,
            call = in(reg) call,
            inout("rdi") lent => _,
            out("r12") _,
            clobber_abi("C"),
        );
    }
    // The library is for x86-64. What is compiled for Arm, to be tried there, is
    // measured in the same way.
    // SAFETY: as above.
    #[cfg(target_arch = "aarch64")]
    unsafe {
        asm!(
            "mov x20, sp",
            "mov sp, {top}",
            "blr {call}",
            "mov sp, x20",
            top = in(reg) top,
            call = in(reg) call,
            inout("x0") lent => _,
            out("x20") _,
            clobber_abi("C"),
        );
    }
    #[cfg(not(any(target_arch = "x86_64", target_arch = "aarch64")))]
    unimplemented!("the stack of this processor: {top}, {call:p}, {lent:p}");
    let kept = stack.iter().take_while(|&&word| word == PAINT).count();
    assert!(kept > 0, "the painted stack is too small");
    8 * (words - kept)
}
