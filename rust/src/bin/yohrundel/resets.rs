//! The kind and the torn mask of a reset as arguments.

use yohrundel::reset_kind::{BROWN_OUT, OTHER, POWER_ON};

use crate::arguments::{formed, hexadecimal, Arguments};
use crate::failure::Failure;

/// A kind of reset.
#[derive(Clone, Copy, Debug, PartialEq, Eq)]
pub struct Kind {
    pub number: u32,
    pub name: &'static str,
}

/// The four words of a torn mask.
pub type Mask = [u32; 4];

/// All kinds.
pub const KINDS: [Kind; 3] = [
    kind(POWER_ON, "power-on"),
    kind(BROWN_OUT, "brown-out"),
    kind(OTHER, "other"),
];

const fn kind(number: u32, name: &'static str) -> Kind {
    Kind { number, name }
}

/// What a kind may be written as.
pub const KIND_WORDS: &str = "power-on, brown-out or other, or 0, 1 or 2";

/// A kind by its number or its name.
pub fn read_kind(text: &str) -> Option<Kind> {
    let is_meant = |kind: &Kind| text == kind.name || text == kind.number.to_string();
    KINDS.into_iter().find(is_meant)
}

/// The name of a kind.
pub fn kind_name(number: u32) -> Option<&'static str> {
    let kind = KINDS.into_iter().find(|kind| kind.number == number);
    kind.map(|kind| kind.name)
}

pub fn take_kind(arguments: &mut Arguments) -> Result<Kind, Failure> {
    arguments.form("KIND", KIND_WORDS, read_kind)
}

/// A mask, 0 where none is given.
pub fn take_mask(arguments: &mut Arguments) -> Result<Mask, Failure> {
    match arguments.optional() {
        Some(mask) => formed(mask, "MASK", MASK_WORDS, read_mask),
        None => Ok([0; 4]),
    }
}

/// What a mask may be written as.
pub const MASK_WORDS: &str = "one or four hexadecimal words";

/// A word for all four words, or four words.
pub fn read_mask(text: &str) -> Option<Mask> {
    let words: Option<Vec<u32>> = text.split(',').map(hexadecimal).collect();
    match words?[..] {
        [word] => Some([word; 4]),
        [first, second, third, fourth] => Some([first, second, third, fourth]),
        _ => None,
    }
}

/// A mask as it is read, in its shorter form.
pub fn mask_text(mask: Mask) -> String {
    let words = match mask {
        [word, ..] if mask == [word; 4] => &mask[..1],
        _ => &mask,
    };
    let words: Vec<String> = words.iter().map(|word| format!("{word:08X}")).collect();
    words.join(",")
}

#[cfg(test)]
#[test]
fn masks_as_texts() {
    for (mask, text) in [
        ([0; 4], "00000000"),
        ([!0; 4], "FFFFFFFF"),
        ([!0, 0, 0, 0], "FFFFFFFF,00000000,00000000,00000000"),
        ([7, 7, 7, 6], "00000007,00000007,00000007,00000006"),
    ] {
        assert_eq!(mask_text(mask), text);
        assert_eq!(read_mask(text), Some(mask));
    }
}
