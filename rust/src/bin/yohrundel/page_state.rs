//! What a page holds, as the pictures show it.

/// The state of a page.
#[derive(Clone, Copy, Debug, PartialEq, Eq)]
pub enum PageState {
    /// As before the update.
    Old,
    /// All ones.
    Blank,
    /// Erased in part, written in part, or torn.
    Partly,
    /// As the new bank has it.
    New,
}

impl PageState {
    /// All of them, in the order of the legends.
    pub const ALL: [PageState; 4] = [
        PageState::Old,
        PageState::Blank,
        PageState::Partly,
        PageState::New,
    ];

    /// What the legends call it.
    pub fn name(self) -> &'static str {
        match self {
            PageState::Old => "old",
            PageState::Blank => "blank",
            PageState::Partly => "partly written",
            PageState::New => "new",
        }
    }
}

/// The state of a page that holds some words now, by what it held before and what the new bank has there.
///
/// A page of the new bank may be all ones, or as it was before. So a page that equals it is blank or old until the update has erased it,
/// and new from then on; in a bank that is not updated no page is erased. Where no new bank is known, a page is new when no quad of it is
/// blank.
pub fn page_state(old: &[u32], new: Option<&[u32]>, now: &[u32], is_erased: bool) -> PageState {
    let is_new = match new {
        Some(new) => now == new,
        None => !now.chunks(4).any(is_blank),
    };
    if is_new && is_erased {
        PageState::New
    } else if is_blank(now) {
        PageState::Blank
    } else if now == old {
        PageState::Old
    } else if is_new {
        PageState::New
    } else {
        PageState::Partly
    }
}

/// Whether words are all ones.
fn is_blank(words: &[u32]) -> bool {
    words.iter().all(|word| *word == !0)
}

#[cfg(test)]
mod tests {
    use super::PageState::{Blank, New, Old, Partly};
    use super::*;

    /// The words of a small page: two quads, each with the same word four times.
    fn page(first: u32, second: u32) -> Vec<u32> {
        [[first; 4], [second; 4]].concat()
    }

    /// The state before the update erased the page, and after it.
    fn states(old: &[u32], new: &[u32], now: &[u32]) -> [PageState; 2] {
        [false, true].map(|is_erased| page_state(old, Some(new), now, is_erased))
    }

    /// A page of words is erased quad by quad, and written quad by quad.
    #[test]
    fn words_in_place_of_words() {
        let (old, new) = (page(1, 2), page(3, 4));
        assert_eq!(states(&old, &new, &old), [Old, Old]);
        assert_eq!(states(&old, &new, &page(!0, 2)), [Partly, Partly]);
        assert_eq!(states(&old, &new, &page(!0, !0)), [Blank, Blank]);
        assert_eq!(states(&old, &new, &page(3, !0)), [Partly, Partly]);
        assert_eq!(states(&old, &new, &new), [New, New]);
    }

    /// A torn quad is partly written, also where no quad is blank.
    #[test]
    fn torn_quads() {
        let (old, new) = (page(!0, !0), page(3, 4));
        let mut torn = new.clone();
        torn[7] = !3;
        assert_eq!(states(&old, &new, &torn), [Partly, Partly]);
        torn[7] = 4;
        assert_eq!(states(&old, &new, &torn), [New, New]);
        torn[0] = !0;
        assert_eq!(states(&old, &new, &torn), [Partly, Partly]);
    }

    /// The erase makes the new page, and before its last step the page is not new.
    #[test]
    fn all_ones_in_place_of_words() {
        let (old, new) = (page(1, 2), page(!0, !0));
        assert_eq!(states(&old, &new, &old), [Old, Old]);
        assert_eq!(states(&old, &new, &page(!0, 2)), [Partly, Partly]);
        assert_eq!(states(&old, &new, &new), [Blank, New]);
    }

    /// The words are the same before and after the erase.
    #[test]
    fn all_ones_in_place_of_all_ones() {
        let blank = page(!0, !0);
        assert_eq!(states(&blank, &blank, &blank), [Blank, New]);
        let mut one_bit = blank.clone();
        one_bit[4] = !1;
        assert_eq!(states(&blank, &blank, &one_bit), [Partly, Partly]);
    }

    /// The update writes the words that were there.
    #[test]
    fn words_in_place_of_the_same_words() {
        let same = page(1, 2);
        assert_eq!(states(&same, &same, &same), [Old, New]);
        assert_eq!(states(&same, &same, &page(!0, !0)), [Blank, Blank]);
        assert_eq!(states(&same, &same, &page(1, !0)), [Partly, Partly]);
    }

    /// The last quads of a new page may be blank: it is new without them, and before its other quads are written it is blank.
    #[test]
    fn pages_with_blank_quads() {
        let (old, new) = (page(1, 2), page(3, !0));
        assert_eq!(states(&old, &new, &page(!0, !0)), [Blank, Blank]);
        assert_eq!(states(&old, &new, &page(3, !0)), [New, New]);
    }

    /// Without a new bank a page is partly written as long as a quad of it is blank.
    #[test]
    fn no_new_bank() {
        let state = |old: &[u32], now: &[u32]| page_state(old, None, now, false);
        let (old, blank) = (page(1, !0), page(!0, !0));
        assert_eq!(state(&old, &old), Old);
        assert_eq!(state(&old, &blank), Blank);
        assert_eq!(state(&blank, &blank), Blank);
        assert_eq!(state(&old, &page(1, 2)), New);
        assert_eq!(state(&old, &page(!0, 2)), Partly);
        assert_eq!(state(&blank, &page(3, !0)), Partly);
        let mut one_bit = page(3, !0);
        one_bit[7] = !1;
        assert_eq!(state(&blank, &one_bit), New);
    }
}
