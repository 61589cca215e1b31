//! Byte lanes: an image with like bytes together, and the way back.

use crate::{ffi, Decline};

/// Stores an image, the 4×n little-endian bytes of n words, as all first bytes, then all second, third and fourth.
///
/// # Errors
///
/// [`Decline::Lanes`]: the two lengths differ or are no multiple of 4.
pub fn lanes_out(source: &[u8], target: &mut [u8]) -> Result<(), Decline> {
    Decline::judge(ffi::lanes_out(source, target))
}

/// Restores an image of which the bytes are stored as [`lanes_out`] stores them.
///
/// # Errors
///
/// [`Decline::Lanes`]: the two lengths differ or are no multiple of 4.
pub fn lanes_back(source: &[u8], target: &mut [u8]) -> Result<(), Decline> {
    Decline::judge(ffi::lanes_back(source, target))
}
