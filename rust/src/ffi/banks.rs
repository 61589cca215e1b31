//! The device with its two banks.

use super::device::EventAnswer;
use crate::{Device, Geometry};

#[repr(C)]
pub(crate) struct ResetAnswer {
    pub decline: u32,
    pub reason: u32,
    pub device: Device,
}

#[repr(C)]
pub(crate) struct FlashReadAnswer {
    pub decline: u32,
    pub word: u32,
    pub event: bool,
    pub device: Device,
}

#[repr(C)]
pub(crate) struct LowerBankAnswer {
    pub decline: u32,
    pub bank: u32,
    pub length: usize,
}

#[repr(C)]
pub(crate) struct PageAnswer {
    pub decline: u32,
    pub offset: usize,
    pub length: usize,
}

#[repr(C)]
struct Mask {
    words: [u32; 4],
}

extern "C" {
    #[link_name = "yohrundel_flash_read_3"]
    fn yohrundel_flash_read(
        g: Geometry,
        d: Device,
        one: *mut u32,
        one_words: usize,
        two: *mut u32,
        two_words: usize,
        sram: *const u32,
        sram_words: usize,
        address: u32,
    ) -> FlashReadAnswer;

    #[link_name = "yohrundel_lower_bank_2"]
    fn yohrundel_lower_bank(
        g: Geometry,
        d: Device,
        one: *const u32,
        one_words: usize,
        two: *const u32,
        two_words: usize,
    ) -> LowerBankAnswer;

    fn yohrundel_page(g: Geometry, bank: *const u32, bank_words: usize, page: u32) -> PageAnswer;

    #[link_name = "yohrundel_step_2"]
    fn yohrundel_step(
        g: Geometry,
        d: Device,
        one: *mut u32,
        one_words: usize,
        two: *mut u32,
        two_words: usize,
        sram: *const u32,
        sram_words: usize,
    ) -> EventAnswer;

    #[link_name = "yohrundel_reset_2"]
    fn yohrundel_reset(
        g: Geometry,
        d: Device,
        one: *mut u32,
        one_words: usize,
        two: *mut u32,
        two_words: usize,
        sram: *const u32,
        sram_words: usize,
        kind: u32,
        mask: Mask,
    ) -> ResetAnswer;
}

pub(crate) fn flash_read(
    g: Geometry,
    d: Device,
    one: &mut [u32],
    two: &mut [u32],
    sram: &[u32],
    address: u32,
) -> FlashReadAnswer {
    let (one, one_words) = (one.as_mut_ptr(), one.len());
    let (two, two_words) = (two.as_mut_ptr(), two.len());
    let (sram, sram_words) = (sram.as_ptr(), sram.len());
    // SAFETY: each pointer and its count are a slice's; only the banks are written, which are borrowed for it.
    unsafe {
        yohrundel_flash_read(
            g, d, one, one_words, two, two_words, sram, sram_words, address,
        )
    }
}

pub(crate) fn lower_bank(g: Geometry, d: Device, one: &[u32], two: &[u32]) -> LowerBankAnswer {
    let (one, one_words) = (one.as_ptr(), one.len());
    let (two, two_words) = (two.as_ptr(), two.len());
    // SAFETY: each pointer and its count are a slice's; nothing is written.
    unsafe { yohrundel_lower_bank(g, d, one, one_words, two, two_words) }
}

pub(crate) fn page(g: Geometry, bank: &[u32], page: u32) -> PageAnswer {
    // SAFETY: the pointer and the count are a slice's; nothing is written.
    unsafe { yohrundel_page(g, bank.as_ptr(), bank.len(), page) }
}

pub(crate) fn step(
    g: Geometry,
    d: Device,
    one: &mut [u32],
    two: &mut [u32],
    sram: &[u32],
) -> EventAnswer {
    let (one, one_words) = (one.as_mut_ptr(), one.len());
    let (two, two_words) = (two.as_mut_ptr(), two.len());
    let (sram, sram_words) = (sram.as_ptr(), sram.len());
    // SAFETY: each pointer and its count are a slice's; only the banks are written, which are borrowed for it.
    unsafe { yohrundel_step(g, d, one, one_words, two, two_words, sram, sram_words) }
}

pub(crate) fn reset(
    g: Geometry,
    d: Device,
    one: &mut [u32],
    two: &mut [u32],
    sram: &[u32],
    kind: u32,
    words: [u32; 4],
) -> ResetAnswer {
    let (one, one_words) = (one.as_mut_ptr(), one.len());
    let (two, two_words) = (two.as_mut_ptr(), two.len());
    let (sram, sram_words) = (sram.as_ptr(), sram.len());
    let mask = Mask { words };
    // SAFETY: each pointer and its count are a slice's; only the banks are written, which are borrowed for it.
    unsafe {
        yohrundel_reset(
            g, d, one, one_words, two, two_words, sram, sram_words, kind, mask,
        )
    }
}
