//! Byte lanes: an image's bytes by their place in the word, and the way back.

use crate::{Answer, Refusal};

/// "stored as all first bytes, then all second, third and fourth".
pub fn lanes_out(source: &[u8], target: &mut [u8]) -> Answer<()> {
    check_lengths(source, target)?;
    let mut stored = Vec::new();
    for lane in 0..4 {
        for word in source.chunks_exact(4) {
            stored.push(word[lane]);
        }
    }
    target.copy_from_slice(&stored);
    Ok(())
}

/// "The way back restores it".
pub fn lanes_back(source: &[u8], target: &mut [u8]) -> Answer<()> {
    check_lengths(source, target)?;
    let words = source.len() / 4;
    let mut restored = Vec::new();
    for word in 0..words {
        for lane in 0..4 {
            restored.push(source[lane * words + word]);
        }
    }
    target.copy_from_slice(&restored);
    Ok(())
}

/// Decline 22: "the two lengths differ or aren't a multiple of 4".
fn check_lengths(source: &[u8], target: &[u8]) -> Answer<()> {
    if source.len() != target.len() || !source.len().is_multiple_of(4) {
        return Err(Refusal::LaneLengths);
    }
    Ok(())
}
