//! What the crate says a call was declined for, on both sides of each edge. The texts are written by hand from the papers.
//!
//! Each call is made too, and its decline is that of the culprit.

mod accesses;
mod addresses;
mod devices;
mod lengths;
mod plans;
mod rows;
mod scripts;
mod sign;
mod starts;
mod turns;

use yohrundel::culprit::Culprit;
use yohrundel::Decline;

/// The text of a culprit; none where the call is accepted.
pub type Told = Option<String>;

/// What is told of a call that gave an answer.
pub fn told<T>(culprit: Option<Culprit>, answer: Result<T, Decline>) -> Told {
    assert_eq!(culprit.as_ref().map(Culprit::decline), answer.err());
    culprit.map(|culprit| culprit.to_string())
}

/// A text that must be told.
pub fn text(text: &str) -> Told {
    Some(text.to_string())
}
