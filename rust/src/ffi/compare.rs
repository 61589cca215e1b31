//! The comparison of two sequence words.

#[repr(C)]
pub(crate) struct CompareAnswer {
    pub bank: u32,
    pub reason: u32,
}

extern "C" {
    fn yohrundel_compare(first: u32, other: u32) -> CompareAnswer;
}

pub(crate) fn compare(first: u32, other: u32) -> CompareAnswer {
    // SAFETY: it takes numbers alone.
    unsafe { yohrundel_compare(first, other) }
}
