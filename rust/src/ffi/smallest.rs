//! The smallest script that shows a number.

use crate::{Bench, Device, Geometry};

#[repr(C)]
pub(crate) struct SmallestAnswer {
    pub decline: u32,
    pub records: u32,
}

extern "C" {
    fn yohrundel_smallest(
        g: Geometry,
        d: Device,
        one: *const u32,
        one_words: usize,
        two: *const u32,
        two_words: usize,
        sram: *const u32,
        sram_words: usize,
        scratch_one: *mut u32,
        scratch_one_words: usize,
        scratch_two: *mut u32,
        scratch_two_words: usize,
        script: *const u8,
        script_bytes: usize,
        number: u32,
        result: *mut u8,
        result_bytes: usize,
    ) -> SmallestAnswer;
}

pub(crate) fn smallest(
    bench: Bench,
    scratch: [&mut [u32]; 2],
    script: &[u8],
    number: u32,
    result: &mut [u8],
) -> SmallestAnswer {
    let (one, two, sram) = (bench.one, bench.two, bench.sram);
    let [first, second] = scratch;
    // SAFETY: each pointer and its count are a slice's; only the scratch banks and the result are written, which are borrowed for it.
    unsafe {
        yohrundel_smallest(
            bench.geometry,
            bench.device,
            one.as_ptr(),
            one.len(),
            two.as_ptr(),
            two.len(),
            sram.as_ptr(),
            sram.len(),
            first.as_mut_ptr(),
            first.len(),
            second.as_mut_ptr(),
            second.len(),
            script.as_ptr(),
            script.len(),
            number,
            result.as_mut_ptr(),
            result.len(),
        )
    }
}
