//! The stack that a call uses. The call runs on a block of memory filled with a
//! pattern; the lowest byte that lost it shows how deep the call went. It is done
//! with two patterns, since a call may write a byte that is like one. What a call
//! sets aside below that byte and never writes is not counted.

use crate::calls::{Buffer, Call};
use std::arch::asm;

/// The block, in bytes: far more than a call should need.
const SIZE: usize = 1 << 20;

/// The bytes of stack, with the return address, that the archive's call uses.
///
/// # Safety
/// The buffers must be distinct and as long as they say.
pub unsafe fn used(call: Call, buffers: [Buffer; 4], target: u32) -> usize {
    let (entry, words) = call.entry(buffers, target);
    let depth = |pattern| unsafe { depth(entry, words, pattern) };
    depth(0x5a).max(depth(0xa5))
}

/// Arguments 1 to 6 go in registers, 7 and 8 to the top of the new stack. The
/// System V rules of x86-64 hold, as for the archive.
unsafe fn depth(entry: *const (), words: [usize; 8], pattern: u8) -> usize {
    let mut block = vec![u128::from_ne_bytes([pattern; 16]); SIZE / 16];
    let arguments = (words[6] as u128) | (words[7] as u128) << 64;
    *block.last_mut().expect("a block") = arguments;
    let stack = block.as_mut_ptr().add(block.len() - 1);
    asm!(
        "mov r12, rsp",
        "mov rsp, {stack}",
        "call {entry}",
        "mov rsp, r12",
        stack = in(reg) stack,
        entry = in(reg) entry,
        in("rdi") words[0],
        in("rsi") words[1],
        in("rdx") words[2],
        in("rcx") words[3],
        in("r8") words[4],
        in("r9") words[5],
        out("r12") _,
        clobber_abi("C"),
    );
    let bytes = block.iter().flat_map(|word| word.to_ne_bytes());
    let untouched = bytes.take_while(|byte| *byte == pattern).count();
    (SIZE - 16).saturating_sub(untouched)
}

#[cfg(test)]
mod tests {
    use std::hint::black_box;

    extern "C" fn uses<const BYTES: usize>(byte: u8) {
        black_box([byte; BYTES]);
    }

    #[test]
    fn finds_the_depth() {
        let functions = [(uses::<10_000> as *const (), 10_000), (uses::<90_000> as _, 90_000)];
        for (function, bytes) in functions {
            for (byte, pattern) in [(0x5a, 0xa5), (0, 0x5a)] {
                let words = [byte, 0, 0, 0, 0, 0, 0, 0];
                // SAFETY: the function takes one word and no buffer.
                let depth = unsafe { super::depth(function, words, pattern) };
                assert!((bytes..bytes + 1_000).contains(&depth), "depth {depth}");
            }
        }
    }
}
