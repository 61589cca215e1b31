//! Two images: mostly one word apart, else equal or several words apart.

use crate::geometry::Geometry;
use crate::random::Random;

use super::memory::image;

pub fn images(random: &mut Random, geometry: &Geometry) -> [Vec<u32>; 2] {
    let image = image(random, geometry);
    let mut other = image.clone();
    let changed = match random.below(10) {
        0 => 0,
        1 => 2,
        2 => random.between(2, 6),
        3 => {
            let bits = difference(random);
            other.iter_mut().for_each(|word| *word ^= bits);
            0
        }
        _ => 1,
    };
    for _ in 0..changed {
        other[index(random, geometry)] ^= difference(random);
    }
    [image, other]
}

/// Bits of which at least one is 1.
fn difference(random: &mut Random) -> u32 {
    match random.below(3) {
        0 => random.edge_word().max(1),
        _ => 1 << random.below(32),
    }
}

/// A word in or beside the sequence quad, at an end of a page, or any.
fn index(random: &mut Random, geometry: &Geometry) -> usize {
    let (words, page) = (geometry.bank_words(), geometry.page_words());
    let sequence = geometry.sequence_index() as u32;
    let index = match random.below(5) {
        0 => sequence + random.below(4),
        1 => sequence - 4 + random.below(12),
        2 => page * random.below(geometry.pages()) + random.pick(&[0, 1, page - 1]),
        _ => random.below(words),
    };
    index as usize
}
