//! The page sheet.

use crate::{Device, Geometry};

#[repr(C)]
pub(crate) struct PageSheetAnswer {
    pub decline: u32,
    pub bytes: usize,
}

extern "C" {
    #[link_name = "yohrundel_page_sheet_2"]
    fn yohrundel_page_sheet(
        g: Geometry,
        d: Device,
        one: *const u32,
        one_words: usize,
        two: *const u32,
        two_words: usize,
        out: *mut u8,
        out_bytes: usize,
    ) -> PageSheetAnswer;
}

pub(crate) fn page_sheet(
    g: Geometry,
    d: Device,
    one: &[u32],
    two: &[u32],
    out: &mut [u8],
) -> PageSheetAnswer {
    let (one, one_words) = (one.as_ptr(), one.len());
    let (two, two_words) = (two.as_ptr(), two.len());
    let (out, out_bytes) = (out.as_mut_ptr(), out.len());
    // SAFETY: each pointer and its count are a slice's; only the buffer is written, which is borrowed for it.
    unsafe { yohrundel_page_sheet(g, d, one, one_words, two, two_words, out, out_bytes) }
}
