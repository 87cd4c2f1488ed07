//! The play of the proved hub, from the static library that `rt` builds: all calls of the bench that are unsafe.

#![allow(unsafe_code)]

mod library {
    unsafe extern "C" {
        pub fn play_on_table(
            version: u16,
            entries: *const u16,
            entries_len: usize,
            script: *const u8,
            script_len: usize,
            times: u32,
            out: *mut u8,
            out_len: usize,
        ) -> usize;

        pub fn play_on_image(
            version: u16,
            block: *const u8,
            block_len: usize,
            script: *const u8,
            script_len: usize,
            times: u32,
            out: *mut u8,
            out_len: usize,
        ) -> usize;
    }
}

pub fn play_on_table(version: u16, entries: &[u16], script: &[u8], times: u32, out: &mut [u8]) -> usize {
    // SAFETY: each pointer comes with the length of its slice, which lives on through the call, and `out`, which alone
    // is written to, is borrowed by nobody else.
    unsafe {
        library::play_on_table(
            version,
            entries.as_ptr(),
            entries.len(),
            script.as_ptr(),
            script.len(),
            times,
            out.as_mut_ptr(),
            out.len(),
        )
    }
}

pub fn play_on_image(version: u16, block: &[u8], script: &[u8], times: u32, out: &mut [u8]) -> usize {
    // SAFETY: as in `play_on_table`.
    unsafe {
        library::play_on_image(
            version,
            block.as_ptr(),
            block.len(),
            script.as_ptr(),
            script.len(),
            times,
            out.as_mut_ptr(),
            out.len(),
        )
    }
}
