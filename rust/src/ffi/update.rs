//! The update.

use crate::{Device, Geometry};

#[repr(C)]
pub(crate) struct UpdateStartAnswer {
    pub decline: u32,
    pub place: u32,
    pub total: u32,
}

#[repr(C)]
pub(crate) struct TurnOutcome {
    pub decline: u32,
    pub place: u32,
    pub done: bool,
    pub event: bool,
}

extern "C" {
    #[link_name = "yohrundel_update_start_2"]
    fn yohrundel_update_start(
        g: Geometry,
        d: Device,
        one: *const u32,
        one_words: usize,
        two: *const u32,
        two_words: usize,
        image: *const u32,
        image_words: usize,
    ) -> UpdateStartAnswer;

    #[link_name = "yohrundel_turn_lent_2"]
    fn yohrundel_turn_lent(
        g: Geometry,
        d: *mut Device,
        one: *mut u32,
        one_words: usize,
        two: *mut u32,
        two_words: usize,
        image: *const u32,
        image_words: usize,
        sram: *const u32,
        sram_words: usize,
        place: u32,
    ) -> TurnOutcome;
}

pub(crate) fn update_start(
    g: Geometry,
    d: Device,
    one: &[u32],
    two: &[u32],
    image: &[u32],
) -> UpdateStartAnswer {
    let (one, one_words) = (one.as_ptr(), one.len());
    let (two, two_words) = (two.as_ptr(), two.len());
    let (image, image_words) = (image.as_ptr(), image.len());
    // SAFETY: each pointer and its count are a slice's; nothing is written.
    unsafe { yohrundel_update_start(g, d, one, one_words, two, two_words, image, image_words) }
}

#[inline]
pub(crate) fn turn_lent(
    g: Geometry,
    d: &mut Device,
    one: &mut [u32],
    two: &mut [u32],
    image: &[u32],
    sram: &[u32],
    place: u32,
) -> TurnOutcome {
    let (one, one_words) = (one.as_mut_ptr(), one.len());
    let (two, two_words) = (two.as_mut_ptr(), two.len());
    let (image, image_words) = (image.as_ptr(), image.len());
    let (sram, sram_words) = (sram.as_ptr(), sram.len());
    // SAFETY: each pointer and its count are a slice's; only the device and the banks are written, which are borrowed for it.
    unsafe {
        yohrundel_turn_lent(
            g,
            d,
            one,
            one_words,
            two,
            two_words,
            image,
            image_words,
            sram,
            sram_words,
            place,
        )
    }
}
