//! Moves all code of the bench in memory by some bytes, so that figures can be seen that depend on where a loop lies.

#![allow(unsafe_code)]

use std::arch::global_asm;

/// So many bytes stand before the code: `SHIFT=16 bench/run`.
const SHIFT: usize = match option_env!("SHIFT") {
    Some(word) => match usize::from_str_radix(word, 10) {
        Ok(bytes) => bytes,
        Err(_) => panic!("SHIFT is a number of bytes"),
    },
    None => 0,
};

// Kept (R) though nothing refers to it, and never run.
global_asm!(".pushsection .text.shift, \"axR\", @progbits", ".skip {}", ".popsection", const SHIFT);
