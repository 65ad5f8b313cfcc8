//! Transistors.

mod c {
    extern "C" {
        pub fn loxurfa_transistors(
            collectors: *const i32,
            collectors_len: usize,
            bases: *const i32,
            bases_len: usize,
            emitters: *const i32,
            emitters_len: usize,
            list: *mut u32,
            list_len: usize,
            out: *mut i32,
            out_len: usize,
            scratch: *mut i32,
            scratch_len: usize,
        ) -> u64;
    }
}

/// The value is the number of triples. Layers with overlaps are refused with 13.
pub fn transistors(
    collectors: &[i32],
    bases: &[i32],
    emitters: &[i32],
    list: &mut [u32],
    out: &mut [i32],
    scratch: &mut [i32],
) -> u64 {
    // SAFETY: each pointer and length is one Rust slice, alive during the call. The library reads the
    // three layers, which may be the same, and writes only within list, out and scratch, which overlap
    // nothing.
    unsafe {
        c::loxurfa_transistors(
            collectors.as_ptr(),
            collectors.len(),
            bases.as_ptr(),
            bases.len(),
            emitters.as_ptr(),
            emitters.len(),
            list.as_mut_ptr(),
            list.len(),
            out.as_mut_ptr(),
            out.len(),
            scratch.as_mut_ptr(),
            scratch.len(),
        )
    }
}
