//! Fracture.

mod c {
    extern "C" {
        pub fn loxurfa_fracture(
            layer: u32,
            file: *const u8,
            file_len: usize,
            out: *mut i32,
            out_len: usize,
            scratch: *mut i32,
            scratch_len: usize,
        ) -> u64;

        pub fn loxurfa_fracture_first_edition(
            layer: u32,
            file: *const u8,
            file_len: usize,
            out: *mut i32,
            out_len: usize,
            scratch: *mut i32,
            scratch_len: usize,
        ) -> u64;
    }
}

/// The value is the number of trapezoids written. The overlays are 0. A layer above 31 is refused with 14.
pub fn fracture(layer: u32, file: &[u8], out: &mut [i32], scratch: &mut [i32]) -> u64 {
    // SAFETY: each pointer and length is one Rust slice, alive during the call. The library reads
    // the file and writes only within out and scratch, which overlap nothing.
    unsafe {
        c::loxurfa_fracture(
            layer,
            file.as_ptr(),
            file.len(),
            out.as_mut_ptr(),
            out.len(),
            scratch.as_mut_ptr(),
            scratch.len(),
        )
    }
}

/// The same by the reader of the first edition.
pub fn fracture_first_edition(
    layer: u32,
    file: &[u8],
    out: &mut [i32],
    scratch: &mut [i32],
) -> u64 {
    // SAFETY: as in `fracture`.
    unsafe {
        c::loxurfa_fracture_first_edition(
            layer,
            file.as_ptr(),
            file.len(),
            out.as_mut_ptr(),
            out.len(),
            scratch.as_mut_ptr(),
            scratch.len(),
        )
    }
}
