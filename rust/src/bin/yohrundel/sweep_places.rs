//! Which places of an update a sweep cuts, and how they are shared out.

use yohrundel::{Decline, Geometry};

use crate::random::Random;

/// Places that are drawn from all.
#[derive(Clone, Copy, Debug, PartialEq, Eq)]
pub struct Sample {
    pub places: u32,
    pub seed: u32,
}

/// The last places, which every sample has: the last step, where a cut leaves the old bank or the new, and the two after it.
const LAST: u32 = 3;

/// The places from 0 to the total, all or a sample, ascending.
pub fn places(total: u32, sample: Option<Sample>) -> Vec<u32> {
    match sample {
        Some(sample) => drawn(total, sample),
        None => (0..=total).collect(),
    }
}

/// Each place is taken with the chance that fills the sample in the places that are left: every sample is equally likely.
fn drawn(total: u32, Sample { places, seed }: Sample) -> Vec<u32> {
    let mut random = Random::new(seed);
    let last = LAST.min(places);
    let (end, mut wanted) = (total + 1 - last, places - last);
    let mut taken = Vec::new();
    for place in 0..end {
        if random.below(end - place) < wanted {
            taken.push(place);
            wanted -= 1;
        }
    }
    taken.extend(end..=total);
    taken
}

/// Share `number` of `of`, from 1: each item is in exactly one share, and the lengths of any two differ by one at most.
pub fn share<T>(items: &[T], number: usize, of: usize) -> &[T] {
    let end = |number: usize| items.len() * number / of;
    &items[end(number - 1)..end(number)]
}

/// The work of a minute on two cores, in words of a bank: a core takes about a third of a nanosecond for each.
const WORK_OF_A_MINUTE: u64 = 300_000_000_000;

/// The work of a cut beside that on the words of the banks.
const WORK_OF_CALLS: u64 = 700;

/// At how many places the supply can be cut so many times each in about a minute on two cores. The same sign has as many on every machine.
pub fn places_of_a_minute(geometry: Geometry, cuts: usize) -> Result<u32, Decline> {
    let work_of_a_cut = WORK_OF_CALLS + geometry.bank_words()? as u64;
    let places = WORK_OF_A_MINUTE / work_of_a_cut.saturating_mul(cuts as u64);
    Ok(u32::try_from(places).unwrap_or(u32::MAX).max(1))
}

#[cfg(test)]
mod tests {
    use super::*;

    fn sample(total: u32, places: u32, seed: u32) -> Vec<u32> {
        super::places(total, Some(Sample { places, seed }))
    }

    #[test]
    fn all_places() {
        assert_eq!(places(4, None), [0, 1, 2, 3, 4]);
    }

    /// As many as are asked for, each once, and the last three always.
    #[test]
    fn sizes_of_samples() {
        for wanted in 1..=40 {
            for seed in [0, 1, 77, u32::MAX] {
                let drawn = sample(40, wanted, seed);
                assert_eq!(drawn.len(), wanted as usize);
                assert!(drawn.is_sorted_by(|one, next| one < next), "{drawn:?}");
                let last = &drawn[drawn.len().saturating_sub(3)..];
                assert!([38, 39, 40].ends_with(last), "{drawn:?}");
            }
        }
    }

    /// A seed gives the same places again, another one others, and every place is drawn by some seed about as often.
    #[test]
    fn seeds_of_samples() {
        assert_eq!(sample(1000, 30, 5), sample(1000, 30, 5));
        assert_ne!(sample(1000, 30, 5), sample(1000, 30, 6));
        let mut counts = [0; 50];
        for seed in 0..10_000 {
            for place in sample(52, 13, seed) {
                // Of the places up to 49 each sample has 10.
                if let Some(count) = counts.get_mut(place as usize) {
                    *count += 1;
                }
            }
        }
        assert!(
            counts.iter().all(|count| (1800..2200).contains(count)),
            "{counts:?}"
        );
    }

    /// Each place is in exactly one share, and the shares are as even as can be.
    #[test]
    fn shares() {
        for length in [0, 1, 2, 7, 253, 973] {
            let items: Vec<u32> = (0..length).collect();
            for of in [1, 2, 3, 5, 7, 8, 64, 253, 300, 1000] {
                let shares: Vec<&[u32]> =
                    (1..=of).map(|number| share(&items, number, of)).collect();
                assert_eq!(shares.concat(), items);
                let lengths = shares.iter().map(|share| share.len());
                let (least, most) = (lengths.clone().min(), lengths.max());
                assert!(most <= least.map(|least| least + 1), "{length} {of}");
            }
        }
    }

    /// Small signs have all their places cut, and more cuts at a place leave fewer places.
    #[test]
    fn places_of_signs() {
        let of = |q, b, p, cuts| places_of_a_minute(Geometry { q, b, p }, cuts);
        let sign = |q, b, p, cuts| of(q, b, p, cuts).expect("a sign");
        assert!(sign(1, 1, 1, 18) > 252);
        assert!(sign(1, 5, 128, 18) > 15_972);
        assert!(sign(128, 5, 128, 18) < 1_907_764);
        assert!(sign(128, 5, 128, 18) > sign(128, 5, 128, 19));
        assert_eq!(sign(128, 5, 128, usize::MAX), 1);
        assert_eq!(of(3, 1, 1, 18), Err(Decline::Geometry));
    }
}
