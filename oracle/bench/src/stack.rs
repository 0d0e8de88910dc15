//! How much stack a call uses: it runs on memory of our own that was painted before.

use differential::pages::{MAP_PRIVATE_ANONYMOUS, PROT_NONE, PROT_READ_WRITE};
use differential::pages::{mmap, mprotect, munmap};
use std::arch::asm;
use std::ffi::c_void;
use std::hint::black_box;
use std::slice;

/// A call that goes below the painted bytes ends the program: they follow bytes that may not be
/// touched.
const GUARD: usize = 1 << 20;
const PAINTED: usize = 8 << 20;
const PAINT: u64 = 0x5A17_C0DE_5A17_C0DE;

pub struct Stack {
    memory: *mut u8,
}

impl Stack {
    pub fn new() -> Stack {
        // SAFETY: a new private mapping, whose first bytes are then protected.
        let memory = unsafe {
            let memory = mmap(
                std::ptr::null_mut(),
                GUARD + PAINTED,
                PROT_READ_WRITE,
                MAP_PRIVATE_ANONYMOUS,
                -1,
                0,
            );
            assert!(memory as isize != -1, "no memory");
            assert_eq!(mprotect(memory, GUARD, PROT_NONE), 0);
            memory.cast()
        };
        Stack { memory }
    }

    fn painted(&mut self) -> &mut [u64] {
        // SAFETY: the bytes of the mapping past the protected ones.
        unsafe { slice::from_raw_parts_mut(self.memory.add(GUARD).cast(), PAINTED / 8) }
    }

    /// The bytes of stack from the call to the last that was written to.
    pub fn used<T>(&mut self, mut call: impl FnMut() -> T) -> usize {
        let mut call = || drop(black_box(call()));
        let painted = self.painted();
        painted.fill(PAINT);
        let top = painted.as_mut_ptr_range().end.cast();
        // SAFETY: `top` is the end of memory that nothing else uses, and is a multiple of 16.
        unsafe { on_stack(top, entrance(&call), (&raw mut call).cast()) }
        let untouched = self.painted().iter().take_while(|&&word| word == PAINT);
        PAINTED - 8 * untouched.count()
    }
}

impl Default for Stack {
    fn default() -> Self {
        Self::new()
    }
}

impl Drop for Stack {
    fn drop(&mut self) {
        // SAFETY: the mapping made by `new`.
        unsafe {
            munmap(self.memory.cast(), GUARD + PAINTED);
        }
    }
}

/// The function that makes a call like this one, given by its address.
fn entrance<F: FnMut()>(_call: &F) -> extern "C" fn(*mut c_void) {
    enter::<F>
}

extern "C" fn enter<F: FnMut()>(call: *mut c_void) {
    // SAFETY: `used` gives the closure, which lives until the call is over.
    unsafe { (*call.cast::<F>())() }
}

/// Runs a function on a stack that ends there.
///
/// # Safety
///
/// There must be memory for the function's stack below `top`, which is a multiple of 16.
#[cfg(target_arch = "x86_64")]
unsafe fn on_stack(top: *mut u8, function: extern "C" fn(*mut c_void), data: *mut c_void) {
    // SAFETY: a C function leaves r12 as it was, and so the stack pointer is put back.
    unsafe {
        asm!(
            "xchg rsp, r12",
            "call {function}",
            "mov rsp, r12",
            function = in(reg) function,
            inout("r12") top => _,
            inout("rdi") data => _,
            clobber_abi("C"),
        );
    }
}

#[cfg(test)]
mod tests {
    use super::*;

    #[inline(never)]
    fn levels(count: usize) -> usize {
        let frame = black_box([count; 128]);
        if count == 0 {
            return 0;
        }
        levels(count - 1) + frame[count % 128]
    }

    #[test]
    fn an_empty_call_uses_little() {
        assert!(Stack::new().used(|| {}) < 256);
    }

    #[test]
    fn each_level_counts() {
        let mut stack = Stack::new();
        let mut used = |count: usize| stack.used(|| levels(black_box(count)));
        let (one, eleven) = (used(1), used(11));
        let level = (eleven - one) / 10;
        assert!(level >= 1_024, "{level}");
        // the same again, although the memory was used before
        assert_eq!(used(1), one);
        assert_eq!((used(21) - one) / 20, level);
    }

    #[test]
    fn what_the_call_does_stays() {
        let mut sum = 0;
        Stack::new().used(|| sum += levels(3));
        assert_eq!(sum, 1 + 2 + 3);
    }
}
