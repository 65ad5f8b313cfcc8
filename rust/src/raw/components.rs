//! Connected components.

mod c {
    extern "C" {
        pub fn loxurfa_components(
            a: *const i32,
            a_len: usize,
            numbers: *mut u32,
            numbers_len: usize,
        ) -> u64;
    }
}

/// The value is the number of connected components. A layer with overlaps is refused with 13.
pub fn components(a: &[i32], numbers: &mut [u32]) -> u64 {
    // SAFETY: each pointer and length is one Rust slice, alive during the call. The library reads a
    // and writes only within numbers, which overlaps nothing.
    unsafe { c::loxurfa_components(a.as_ptr(), a.len(), numbers.as_mut_ptr(), numbers.len()) }
}
