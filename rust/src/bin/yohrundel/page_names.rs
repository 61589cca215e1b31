//! Words and quads of a bank by their numbers in their page, and pages by their numbers among those of their kind.

use std::fmt::{self, Display, Formatter};

use yohrundel::{Decline, Geometry};

/// Where a word stands in a bank. It is printed as its name.
pub struct WordPlace {
    /// The kind of its page: `boot` or `program`.
    pub kind: &'static str,
    pub page: usize,
    pub word: usize,
}

impl Display for WordPlace {
    fn fmt(&self, to: &mut Formatter) -> fmt::Result {
        let (word, page) = (self.word, self.page_name());
        write!(to, "word {word} of {page}")
    }
}

impl WordPlace {
    /// Its quad's number in the page.
    pub fn quad(&self) -> usize {
        self.word / 4
    }

    /// The name of its quad.
    pub fn quad_name(&self) -> String {
        let (quad, page) = (self.quad(), self.page_name());
        format!("quad {quad} of {page}")
    }

    /// The name of its page.
    pub fn page_name(&self) -> String {
        let WordPlace { kind, page, .. } = self;
        format!("{kind} page {page}")
    }
}

/// The place of the word of an index in a bank.
pub fn word_place(geometry: Geometry, index: usize) -> Result<WordPlace, Decline> {
    let page_words = geometry.page_words()?;
    let (number, word) = (index / page_words, index % page_words);
    let (kind, page) = match number.checked_sub(geometry.b as usize) {
        None => ("boot", number),
        Some(page) => ("program", page),
    };
    Ok(WordPlace { kind, page, word })
}

/// The name of the page of a word.
pub fn page_name(geometry: Geometry, index: usize) -> Result<String, Decline> {
    let WordPlace { kind, page, .. } = word_place(geometry, index)?;
    Ok(format!("{kind} page {page}"))
}

/// The name of the quad of a word.
pub fn quad_name(geometry: Geometry, index: usize) -> Result<String, Decline> {
    Ok(word_place(geometry, index)?.quad_name())
}
