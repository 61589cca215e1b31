//! How far one word of an image reaches.

use crate::{ffi, Decline, Geometry};

/// What differs between the updates with two images.
#[derive(Clone, Copy, Debug, PartialEq, Eq, Hash)]
pub enum Reach {
    /// One word differs, and of the actions exactly one.
    Action {
        /// Its place: there the word is stored to its NVMDATA register.
        place: u32,
    },
    /// One word differs, in the sequence quad, and no action does.
    NoAction,
    /// No word differs, or several do, those of the sequence quad counted too.
    Words {
        /// How many; 0 for equal images.
        count: u32,
        /// The lowest index in the images of one that differs; 0 for equal images.
        lowest: u32,
        /// The highest; 0 for equal images.
        highest: u32,
    },
}

/// Compares two images, each one bank long, by what their updates do.
///
/// Where they differ in one word outside the sequence quad, exactly one action of the two updates differs: the store of that word to its
/// NVMDATA register. Two updates with them, begun from the same accepted start and with the same turns and flash reads, are at the same
/// place, and their banks differ in at most that one word of the new bank, also after any equal cut and start-up; the same bank runs in
/// both. Inside the sequence quad, which an update ignores, nothing differs.
///
/// ```
/// use yohrundel::{reach, Decline, Geometry, Reach};
///
/// fn main() -> Result<(), Decline> {
///     let sign = Geometry { q: 1, b: 1, p: 1 };
///     let image = [7; 64];
///     let mut other = image;
///     assert_eq!(reach(sign, &image, &other)?, Reach::Words { count: 0, lowest: 0, highest: 0 });
///     other[sign.sequence_index()?] = 8;
///     assert_eq!(reach(sign, &image, &other)?, Reach::NoAction);
///     other[32] = 9;
///     assert_eq!(reach(sign, &image, &other)?, Reach::Words { count: 2, lowest: 28, highest: 32 });
///     other[28] = 7;
///     assert_eq!(reach(sign, &image, &other)?, Reach::Action { place: 45 });
///     Ok(())
/// }
/// ```
///
/// # Errors
///
/// - [`Decline::Geometry`]: Q, B or P is out of range.
/// - [`Decline::Length`]: an image has another length than [`Geometry::bank_words`].
pub fn reach(geometry: Geometry, image: &[u32], other: &[u32]) -> Result<Reach, Decline> {
    let answer = ffi::reach(geometry, image, other);
    Decline::judge(answer.decline)?;
    Ok(match answer.kind {
        0 => Reach::Action {
            place: answer.place,
        },
        1 => Reach::NoAction,
        _ => Reach::Words {
            count: answer.count,
            lowest: answer.lowest,
            highest: answer.highest,
        },
    })
}
