//! The play of a service script.

use crate::{Device, Geometry};

#[repr(C)]
pub(crate) struct PlayAnswer {
    pub decline: u32,
    pub bytes: usize,
    pub device: Device,
}

#[repr(C)]
pub(crate) struct PlayLengthAnswer {
    pub decline: u32,
    pub bytes: usize,
}

extern "C" {
    #[link_name = "yohrundel_play_2"]
    fn yohrundel_play(
        g: Geometry,
        d: Device,
        one: *mut u32,
        one_words: usize,
        two: *mut u32,
        two_words: usize,
        sram: *const u32,
        sram_words: usize,
        script: *const u8,
        script_bytes: usize,
        out: *mut u8,
        out_bytes: usize,
    ) -> PlayAnswer;

    #[link_name = "yohrundel_play_length_2"]
    fn yohrundel_play_length(
        g: Geometry,
        d: Device,
        one: *const u32,
        one_words: usize,
        two: *const u32,
        two_words: usize,
        sram: *const u32,
        sram_words: usize,
        script: *const u8,
        script_bytes: usize,
    ) -> PlayLengthAnswer;
}

pub(crate) fn play(
    g: Geometry,
    d: Device,
    one: &mut [u32],
    two: &mut [u32],
    sram: &[u32],
    script: &[u8],
    out: &mut [u8],
) -> PlayAnswer {
    let (one, one_words) = (one.as_mut_ptr(), one.len());
    let (two, two_words) = (two.as_mut_ptr(), two.len());
    let (sram, sram_words) = (sram.as_ptr(), sram.len());
    let (script, script_bytes) = (script.as_ptr(), script.len());
    let (out, out_bytes) = (out.as_mut_ptr(), out.len());
    // SAFETY: each pointer and its count are a slice's; only the banks and the buffer are written, which are borrowed for it.
    unsafe {
        yohrundel_play(
            g,
            d,
            one,
            one_words,
            two,
            two_words,
            sram,
            sram_words,
            script,
            script_bytes,
            out,
            out_bytes,
        )
    }
}

pub(crate) fn play_length(
    g: Geometry,
    d: Device,
    one: &[u32],
    two: &[u32],
    sram: &[u32],
    script: &[u8],
) -> PlayLengthAnswer {
    let (one, one_words) = (one.as_ptr(), one.len());
    let (two, two_words) = (two.as_ptr(), two.len());
    let (sram, sram_words) = (sram.as_ptr(), sram.len());
    let (script, script_bytes) = (script.as_ptr(), script.len());
    // SAFETY: each pointer and its count are a slice's; nothing is written.
    unsafe {
        yohrundel_play_length(
            g,
            d,
            one,
            one_words,
            two,
            two_words,
            sram,
            sram_words,
            script,
            script_bytes,
        )
    }
}
