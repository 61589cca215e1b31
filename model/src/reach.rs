//! How far one word reaches: what differs between the updates with two images.

use crate::geometry::Geometry;
use crate::update::data_place;
use crate::Answer;

/// What two images give.
#[derive(Clone, Copy, Debug, PartialEq, Eq)]
pub enum Reach {
    /// One word differs, and of the actions the data store at this place.
    Action { place: u32 },
    /// One word differs, and no action.
    NoAction,
    /// "Equal images, or several differing words": how many, and the lowest and the highest of them.
    Words {
        count: u32,
        lowest: u32,
        highest: u32,
    },
}

/// "a new call gives the place of the differing action, or says there is none".
pub fn reach(numbers: [u32; 3], image: &[u32], other: &[u32]) -> Answer<Reach> {
    let geometry = Geometry::new(numbers)?;
    geometry.check_bank(image)?;
    geometry.check_bank(other)?;
    let differing = differing_words(image, other);
    Ok(match differing[..] {
        // "Inside the sequence quad nothing differs."
        [index] => match data_place(&geometry, index) {
            Some(place) => Reach::Action { place },
            None => Reach::NoAction,
        },
        // "for equal images all three are 0"
        [] => words(0, 0, 0),
        [lowest, .., highest] => words(differing.len() as u32, lowest, highest),
    })
}

fn words(count: u32, lowest: u32, highest: u32) -> Reach {
    Reach::Words {
        count,
        lowest,
        highest,
    }
}

/// The numbers of the words that differ, ascending.
fn differing_words(image: &[u32], other: &[u32]) -> Vec<u32> {
    let pairs = (0..).zip(image.iter().zip(other));
    let differing = pairs.filter(|(_, (word, other))| word != other);
    differing.map(|(index, _)| index).collect()
}
