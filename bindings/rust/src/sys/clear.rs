//! Overwriting secrets: in a buffer, and on the stack below a call.

use core::mem::MaybeUninit;
use core::ptr;
use core::sync::atomic::{compiler_fence, Ordering};

/// The bytes of stack below a call that are cleared after it. Every call of the library uses fewer,
/// as a test measures.
pub const STACK_BYTES: usize = 2560;

/// Makes every byte zero. The writes are volatile, so that they stay although nothing reads the
/// bytes afterwards.
pub(crate) fn wipe(bytes: &mut [u8]) {
    for byte in bytes {
        // SAFETY: `byte` is a reference, so it is valid for a write.
        unsafe { ptr::write_volatile(byte, 0) };
    }
    compiler_fence(Ordering::SeqCst);
}

/// Makes a call and clears the stack that it used.
///
/// The library's functions keep copies of secrets in their frames, and these bytes stay there when
/// a function returns. Both calls below are made from one frame, so the frame of `clear_stack`
/// begins where those of the library began and covers them.
pub(super) fn cleared<T>(call: impl FnOnce() -> T) -> T {
    let answer = call();
    clear_stack();
    answer
}

/// Overwrites its own frame of `STACK_BYTES`. It must not be inlined: its frame would become a part
/// of the caller's, which lies above the bytes to clear.
#[inline(never)]
fn clear_stack() {
    let mut frame = [const { MaybeUninit::<u64>::uninit() }; STACK_BYTES / size_of::<u64>()];
    for word in &mut frame {
        // SAFETY: `word` is a reference, so its pointer is valid for a write.
        unsafe { ptr::write_volatile(word.as_mut_ptr(), 0) };
    }
    compiler_fence(Ordering::SeqCst);
}
