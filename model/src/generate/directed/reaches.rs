//! How far one word reaches: each place of a word, several words and equal images, and every decline.

use crate::cases::Case;
use crate::geometry::{Geometry, ALL_ONES, ROW_QUADS};

use super::orders::{combined, longer, second_shorter, Cause, GEOMETRY};
use super::parts::*;
use super::updates::page_ends;

/// Signs of which each word of the image is changed.
const WHOLE: [Geometry; 3] = [SMALL, geometry(1, 2, 1), geometry(1, 1, 2)];

/// Signs of which words at edges are changed, beside those of every Q.
const EDGES: [Geometry; 6] = [
    SEVERAL,
    geometry(1, 5, 3),
    geometry(1, 1, 64),
    geometry(1, 1, 65),
    MANY_PAGES,
    LARGEST,
];

pub fn cases() -> Vec<Case> {
    let mut cases = Vec::new();
    for geometry in WHOLE {
        let words = 0..geometry.bank_words() as usize;
        cases.extend(words.map(|index| differing(&geometry, &[index])));
    }
    for geometry in ROW_QUADS
        .map(|row_quads| geometry(row_quads, 1, 1))
        .iter()
        .chain(&EDGES)
    {
        edges(geometry, &mut cases);
        several(geometry, &mut cases);
    }
    bits(&mut cases);
    lengths(&mut cases);
    cases.extend(REFUSED.map(|geometry| equal_words(&geometry, [geometry.bank_words(); 2])));
    cases.extend(ordered_reaches().into_iter().map(|(_, case)| case));
    cases
}

/// Images whose words are their numbers at the ends of pages, and differ in some words.
fn differing(geometry: &Geometry, indices: &[usize]) -> Case {
    let mut image = vec![ALL_ONES; geometry.bank_words() as usize];
    for index in page_ends(geometry) {
        image[index] = index as u32;
    }
    changed(geometry, image, indices)
}

/// An image and one that differs from it in some words.
fn changed(geometry: &Geometry, image: Vec<u32>, indices: &[usize]) -> Case {
    let mut other = image.clone();
    for index in indices {
        other[*index] ^= 0x8000_0001;
    }
    reach(geometry, &[image, other])
}

/// One word: at the ends of pages, in the quads there, in the sequence quad and the quads beside it.
fn edges(geometry: &Geometry, cases: &mut Vec<Case>) {
    let sequence = geometry.sequence_index();
    let page = geometry.page_words() as usize;
    let ends = page_ends(geometry);
    let quads = ends.iter().map(|end| end / 4 * 4);
    let quads = quads.chain([sequence - 4, sequence, sequence + 4, page / 2]);
    let mut words: Vec<usize> = quads.flat_map(|first| first..first + 4).collect();
    words.sort_unstable();
    words.dedup();
    cases.extend(words.iter().map(|index| differing(geometry, &[*index])));
}

/// No word, two, three and all; of these some or all in the sequence quad, in one quad, or at the ends of the image.
fn several(geometry: &Geometry, cases: &mut Vec<Case>) {
    let sequence = geometry.sequence_index();
    let last = geometry.bank_words() as usize - 1;
    for indices in [
        &[][..],
        &[0, 1],
        &[0, 3],
        &[0, last],
        &[last - 1, last],
        &[sequence, sequence + 1],
        &[sequence, sequence + 3],
        &[sequence - 1, sequence],
        &[sequence + 3, sequence + 4],
        &[sequence - 1, sequence + 4],
        &[0, 1, 2],
        &[0, sequence, last],
        &[sequence, sequence + 2, sequence + 3],
        &[sequence, sequence + 1, sequence + 2, sequence + 3],
    ] {
        cases.push(differing(geometry, indices));
    }
    let words = last + 1;
    cases.push(reach(geometry, &[vec![0; words], vec![1; words]]));
    cases.push(reach(geometry, &[vec![ALL_ONES; words], vec![0; words]]));
}

/// One word that differs in each bit, either way, and in all bits; the order of the images.
fn bits(cases: &mut Vec<Case>) {
    for (index, fill) in [(0, 0), (28, ALL_ONES), (63, 0x5555_5555)] {
        for bits in (0..32).map(|bit| 1 << bit).chain([ALL_ONES]) {
            let image = vec![fill; SMALL.bank_words() as usize];
            let mut other = image.clone();
            other[index] ^= bits;
            cases.push(reach(&SMALL, &[image.clone(), other.clone()]));
            cases.push(reach(&SMALL, &[other, image]));
        }
    }
}

/// Decline 2: either image or both, of no words, one, a word short, a word long, a page short and long, and twice as long.
fn lengths(cases: &mut Vec<Case>) {
    for geometry in [SMALL, SEVERAL] {
        let (right, page) = (geometry.bank_words(), geometry.page_words());
        let wrong = [
            0,
            1,
            right - page,
            right - 1,
            right + 1,
            right + page,
            2 * right,
        ];
        for wrong in wrong {
            for lengths in [[wrong, right], [right, wrong], [wrong, wrong]] {
                cases.push(equal_words(&geometry, lengths));
            }
        }
    }
}

/// Images of some lengths, of which no word differs.
fn equal_words(geometry: &Geometry, lengths: [u32; 2]) -> Case {
    reach(geometry, &lengths.map(|length| vec![7; length as usize]))
}

/// Every set of declines 1 and 2, beside each answer; each case with the lowest number, 0 where none applies.
pub fn ordered_reaches() -> Vec<(u32, Case)> {
    let lengths: Cause = (2, &[longer, second_shorter, both_longer]);
    let (words, sequence) = (SMALL.bank_words() as usize, SMALL.sequence_index());
    let answers = [&[0][..], &[sequence], &[], &[0, sequence]].map(|indices| {
        let base = changed(&SMALL, vec![ALL_ONES; words], indices);
        combined(base, &[GEOMETRY, lengths])
    });
    answers.concat()
}

fn both_longer(case: &mut Case) {
    longer(case);
    case.lists[1].length += 1;
}
