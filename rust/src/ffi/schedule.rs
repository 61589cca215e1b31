//! One turn for one sign of a row.

use crate::{Geometry, Queue, SignRecord, Standing, Supply};

#[repr(C)]
pub(crate) struct ScheduleAnswer {
    pub decline: u32,
    pub idle: bool,
    pub served: u32,
    pub event: bool,
    pub queue: Queue,
    pub last: u32,
}

extern "C" {
    fn yohrundel_schedule(
        g: Geometry,
        k: u32,
        signs: *mut SignRecord,
        signs_count: usize,
        queue: Queue,
        last: u32,
        store: *mut u32,
        store_words: usize,
        image: *const u32,
        image_words: usize,
        sram: *const u32,
        sram_words: usize,
    ) -> ScheduleAnswer;
}

pub(crate) fn schedule(
    supply: Supply,
    signs: &mut [SignRecord],
    standing: Standing,
    store: &mut [u32],
) -> ScheduleAnswer {
    let (image, sram) = (supply.image, supply.sram);
    // SAFETY: each pointer and its count are a slice's; only the list and the store are written, which are borrowed for it.
    unsafe {
        yohrundel_schedule(
            supply.geometry,
            supply.k,
            signs.as_mut_ptr(),
            signs.len(),
            standing.queue,
            standing.last,
            store.as_mut_ptr(),
            store.len(),
            image.as_ptr(),
            image.len(),
            sram.as_ptr(),
            sram.len(),
        )
    }
}
