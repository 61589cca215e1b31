//! Two images compared.

use crate::Geometry;

#[repr(C)]
pub(crate) struct ReachAnswer {
    pub decline: u32,
    pub kind: u32,
    pub place: u32,
    pub count: u32,
    pub lowest: u32,
    pub highest: u32,
}

extern "C" {
    fn yohrundel_reach(
        g: Geometry,
        image: *const u32,
        image_words: usize,
        other: *const u32,
        other_words: usize,
    ) -> ReachAnswer;
}

pub(crate) fn reach(g: Geometry, image: &[u32], other: &[u32]) -> ReachAnswer {
    let (image, image_words) = (image.as_ptr(), image.len());
    let (other, other_words) = (other.as_ptr(), other.len());
    // SAFETY: each pointer and its count are a slice's; nothing is written.
    unsafe { yohrundel_reach(g, image, image_words, other, other_words) }
}
