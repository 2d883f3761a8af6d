//! How deep a call goes into the stack: it runs on one of its own, filled with a pattern.

use std::arch::asm;
use std::mem::size_of;

/// The words of the stack, 8 MiB.
const WORDS: usize = 1 << 20;

/// What no call is likely to write.
const PATTERN: u64 = 0x5a3c_96e1_7b0d_42f8;

/// The bytes of the stack that the work reaches, from the top to the deepest word that it writes.
/// The work must not panic.
pub fn depth<F: FnMut()>(mut work: F) -> usize {
    let mut stack = vec![PATTERN; WORDS];
    let with: *mut F = &mut work;
    // SAFETY: the stack is the call's alone while it runs, `run` gets the work it was made for, and
    // nothing unwinds out of it.
    unsafe { call_on(&mut stack, run::<F>, with.cast()) };
    let untouched = stack.iter().take_while(|&&word| word == PATTERN).count();
    (WORDS - untouched) * size_of::<u64>()
}

extern "C" fn run<F: FnMut()>(work: *mut u8) {
    // SAFETY: `depth` hands over a pointer to an F that outlives the call.
    unsafe { (*work.cast::<F>())() }
}

/// Calls with the stack pointer at the end of the words, which is brought back afterwards.
unsafe fn call_on(stack: &mut [u64], call: extern "C" fn(*mut u8), with: *mut u8) {
    let end = stack.as_mut_ptr_range().end as usize;
    asm!(
        "xchg rsp, r12",
        "call {call}",
        "mov rsp, r12",
        call = in(reg) call,
        in("rdi") with,
        inout("r12") end & !15 => _,
        clobber_abi("C"),
    );
}

#[cfg(test)]
mod tests {
    use super::*;
    use std::hint::black_box;

    fn deep(levels: usize) -> u64 {
        let filled = black_box([levels as u64; 128]);
        match levels {
            0 => filled[0],
            _ => deep(levels - 1) + filled[1],
        }
    }

    #[test]
    fn a_deeper_call_reaches_deeper() {
        let reached = |levels| {
            depth(|| {
                black_box(deep(levels));
            })
        };
        let (shallow, far) = (reached(1), reached(101));
        assert!(far - shallow >= 100 * 128 * 8, "{shallow} and {far}");
        assert!(far < WORDS * 8 / 2);
    }
}
