//! An update written as a service script.

use crate::{Device, Geometry};

#[repr(C)]
pub(crate) struct WriteScriptAnswer {
    pub decline: u32,
    pub records: u32,
}

extern "C" {
    fn yohrundel_write_script(
        g: Geometry,
        d: Device,
        one: *const u32,
        one_words: usize,
        two: *const u32,
        two_words: usize,
        image: *const u32,
        image_words: usize,
        out: *mut u8,
        out_bytes: usize,
    ) -> WriteScriptAnswer;
}

pub(crate) fn write_script(
    g: Geometry,
    d: Device,
    one: &[u32],
    two: &[u32],
    image: &[u32],
    out: &mut [u8],
) -> WriteScriptAnswer {
    let (one, one_words) = (one.as_ptr(), one.len());
    let (two, two_words) = (two.as_ptr(), two.len());
    let (image, image_words) = (image.as_ptr(), image.len());
    let (out, out_bytes) = (out.as_mut_ptr(), out.len());
    // SAFETY: each pointer and its count are a slice's; only the buffer is written, which is borrowed for it.
    unsafe {
        yohrundel_write_script(
            g,
            d,
            one,
            one_words,
            two,
            two_words,
            image,
            image_words,
            out,
            out_bytes,
        )
    }
}
