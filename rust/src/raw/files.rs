//! Layer files.

mod c {
    extern "C" {
        pub fn loxurfa_read_layers(
            file: *const u8,
            file_len: usize,
            out: *mut i32,
            out_len: usize,
        ) -> u64;

        pub fn loxurfa_write_layers(
            words: *const i32,
            words_len: usize,
            out: *mut u8,
            out_len: usize,
        ) -> u64;
    }
}

/// The value is the number of trapezoids in the file. In `out` each has an empty set.
pub fn read_layers(file: &[u8], out: &mut [i32]) -> u64 {
    // SAFETY: each pointer and length is one Rust slice, alive during the call. The library reads
    // the file and writes only within out, which overlaps nothing.
    unsafe { c::loxurfa_read_layers(file.as_ptr(), file.len(), out.as_mut_ptr(), out.len()) }
}

/// The value is the number of trapezoids in the file, which has no sets.
pub fn write_layers(words: &[i32], out: &mut [u8]) -> u64 {
    // SAFETY: as in `read_layers`.
    unsafe { c::loxurfa_write_layers(words.as_ptr(), words.len(), out.as_mut_ptr(), out.len()) }
}
