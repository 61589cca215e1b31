//! `yohrundel reach`: what a changed image can touch.

use yohrundel::{reach, Decline, Geometry, Reach};

use crate::arguments::Arguments;
use crate::command::{Command, First};
use crate::failure::Answer;
use crate::files;
use crate::json::{object, Json, JSON};
use crate::page_names::word_place;
use crate::wording::counted;

pub const COMMAND: Command = Command {
    name: "reach",
    arguments: "Q B P IMAGE1 IMAGE2",
    first: First::Any,
    summary: "says what a changed image can touch",
    details: "\
Q, B and P are the sign's sizes, and IMAGE1 and IMAGE2 files of images, as for
yohrundel update; - is standard input.
Where the images differ in one word it prints the word's number in its page, the
page, what the word is in each image, and the place of the one action of the
update that differs, which stores the word. Two updates with these images, begun
from the same accepted start, with the same turns and flash reads, are at the
same place, and their banks differ in at most that word of the new bank, also
after any equal cut and start-up; the same bank runs in both. A word of the
sequence quad is ignored by an update: nothing differs.
Where several words differ it prints how many, and the first and the last.",
    options: &[JSON],
    keys: &[
        ("differing_words", "in how many words the images differ"),
        (
            "first",
            "the first of them, null where the images are equal",
        ),
        ("first.index", "its number in the image, from 0"),
        ("first.kind", "the kind of its page: boot or program"),
        ("first.page", "the page's number among those of its kind"),
        ("first.word", "the word's number in its page"),
        ("first.values", "what it is in IMAGE1 and in IMAGE2"),
        ("last", "the last of them, with the same keys"),
        (
            "differing_actions",
            "how many actions of the updates differ: 0 or 1, null where several words differ",
        ),
        ("place", "the place of the action that differs, else null"),
        ("register", "the register that it stores to, else null"),
    ],
    run,
};

/// Two images and how they differ.
struct Images {
    geometry: Geometry,
    words: [Vec<u32>; 2],
    /// The numbers of the first and the last word that differ, none where the images are equal.
    ends: Option<[usize; 2]>,
    reach: Reach,
}

fn run(mut arguments: Arguments) -> Answer {
    let geometry = arguments.geometry()?;
    let image = arguments.required("IMAGE1")?;
    let other = arguments.required("IMAGE2")?;
    arguments.end()?;
    let words = [files::bank(geometry, image)?, files::bank(geometry, other)?];
    let images = Images::compare(geometry, words)?;
    if arguments.is_given(&JSON) {
        return Ok(images.json()?.line());
    }
    Ok(images.text()?.into())
}

impl Images {
    fn compare(geometry: Geometry, words: [Vec<u32>; 2]) -> Result<Images, Decline> {
        let [image, other] = &words;
        let mut pairs = image.iter().zip(other);
        let first = pairs.position(|(word, other)| word != other);
        let reach = reach(geometry, image, other)?;
        let ends = first.map(|first| match reach {
            Reach::Words { highest, .. } => [first, highest as usize],
            _ => [first, first],
        });
        Ok(Images {
            geometry,
            words,
            ends,
            reach,
        })
    }

    fn text(&self) -> Result<String, Decline> {
        let Some([first, last]) = self.ends else {
            return Ok(String::from("The images are equal.\n"));
        };
        let [word, other] = self.values(first);
        let name = word_place(self.geometry, first)?;
        let one_word = format!("One word differs: {name}, 0x{word:08X} and 0x{other:08X}.");
        Ok(match self.reach {
            Reach::Action { place } => {
                let register = register(first);
                format!(
                    "{one_word}\n\
                     One action differs, at place {place}: the store of this word to {register}.\n\
                     Begun, run and cut alike, updates with these images differ in no other word \
                     of\nthe banks, and the same bank runs.\n"
                )
            }
            Reach::NoAction => format!(
                "{one_word}\n\
                 It is in the sequence quad, which an update ignores: nothing differs.\n"
            ),
            Reach::Words { count, .. } => {
                let (words, last) = (counted(count, "word"), word_place(self.geometry, last)?);
                format!("{words} differ.\nThe first is {name}, the last is {last}.\n")
            }
        })
    }

    fn json(&self) -> Result<Json, Decline> {
        let (words, actions, place): (u32, Option<u32>, _) = match self.reach {
            Reach::Action { place } => (1, Some(1), Some(place)),
            Reach::NoAction => (1, Some(0), None),
            Reach::Words { count: 0, .. } => (0, Some(0), None),
            Reach::Words { count, .. } => (count, None, None),
        };
        let word = |end: usize| self.ends.map(|ends| self.word(ends[end])).transpose();
        let stored = self.ends.filter(|_| place.is_some());
        Ok(object([
            ("differing_words", words.into()),
            ("first", word(0)?.into()),
            ("last", word(1)?.into()),
            ("differing_actions", actions.into()),
            ("place", place.into()),
            ("register", stored.map(|[first, _]| register(first)).into()),
        ]))
    }

    /// A word that differs.
    fn word(&self, index: usize) -> Result<Json, Decline> {
        let place = word_place(self.geometry, index)?;
        Ok(object([
            ("index", index.into()),
            ("kind", place.kind.into()),
            ("page", place.page.into()),
            ("word", place.word.into()),
            ("values", self.values(index).to_vec().into()),
        ]))
    }

    /// What a word is in each image.
    fn values(&self, index: usize) -> [u32; 2] {
        [self.words[0][index], self.words[1][index]]
    }
}

/// The register that a word of the image is stored to.
fn register(index: usize) -> String {
    format!("NVMDATA{}", index % 4)
}
