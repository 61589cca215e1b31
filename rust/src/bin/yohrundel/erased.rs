//! The pages that an update has erased, by its place.

use yohrundel::Geometry;

/// The actions of the paper's list 1, before the first erase.
const FIRST: u32 = 12;

/// The actions of an erase before its steps: NVMADDR, NVMCON plain 4, set 0x4000, three keys, set 0x8000.
const LAUNCH: u32 = 7;

/// The actions of an erase after its steps: NVMCON clear 0x4000.
const AFTER: u32 = 1;

/// Whether an update at a place has erased a page, by its number in the bank: the last step of its erase is done.
pub fn is_erased(geometry: Geometry, place: u32, page: u32) -> bool {
    let steps = 8 * geometry.q;
    let before = erased_before(geometry, page);
    place >= FIRST + before * (LAUNCH + steps + AFTER) + LAUNCH + steps
}

/// How many pages are erased before a page: "last boot page, other boot pages ascending, program pages ascending".
fn erased_before(geometry: Geometry, page: u32) -> u32 {
    let last_boot_page = geometry.b - 1;
    if page == last_boot_page {
        0
    } else if page < last_boot_page {
        page + 1
    } else {
        page
    }
}

#[cfg(test)]
mod tests {
    use super::*;

    /// The places at which each page of a sign is erased.
    fn places(geometry: Geometry) -> Vec<u32> {
        let first = |page| (0..).find(|place| is_erased(geometry, *place, page));
        let pages = 0..geometry.b + geometry.p;
        pages.map(|page| first(page).expect("a place")).collect()
    }

    /// With Q = 1 an erase has 8 + 8 actions, and the last of its steps is the 15th of them.
    #[test]
    fn pages_of_small_signs() {
        assert_eq!(places(Geometry { q: 1, b: 1, p: 1 }), [27, 43]);
        assert_eq!(places(Geometry { q: 1, b: 3, p: 2 }), [43, 59, 27, 75, 91]);
        // With Q = 2 it has 8 + 16.
        assert_eq!(places(Geometry { q: 2, b: 2, p: 1 }), [59, 35, 83]);
    }

    /// A page that is erased stays so at every later place.
    #[test]
    fn later_places() {
        let geometry = Geometry { q: 1, b: 1, p: 1 };
        assert!((27..=252).all(|place| is_erased(geometry, place, 0)));
        assert!((0..27).all(|place| !is_erased(geometry, place, 0)));
    }
}
