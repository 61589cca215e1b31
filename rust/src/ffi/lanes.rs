//! Byte lanes.

extern "C" {
    fn yohrundel_lanes_out(
        source: *const u8,
        source_bytes: usize,
        target: *mut u8,
        target_bytes: usize,
    ) -> u32;

    fn yohrundel_lanes_back(
        source: *const u8,
        source_bytes: usize,
        target: *mut u8,
        target_bytes: usize,
    ) -> u32;
}

pub(crate) fn lanes_out(source: &[u8], target: &mut [u8]) -> u32 {
    let (source, source_bytes) = (source.as_ptr(), source.len());
    let (target, target_bytes) = (target.as_mut_ptr(), target.len());
    // SAFETY: each pointer and its count are a slice's; only the target is written, which is borrowed for it.
    unsafe { yohrundel_lanes_out(source, source_bytes, target, target_bytes) }
}

pub(crate) fn lanes_back(source: &[u8], target: &mut [u8]) -> u32 {
    let (source, source_bytes) = (source.as_ptr(), source.len());
    let (target, target_bytes) = (target.as_mut_ptr(), target.len());
    // SAFETY: each pointer and its count are a slice's; only the target is written, which is borrowed for it.
    unsafe { yohrundel_lanes_back(source, source_bytes, target, target_bytes) }
}
