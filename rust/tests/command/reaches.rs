//! `yohrundel reach`: every byte that it prints, beside the outside model.

use model::geometry::{Geometry, Kind};
use model::random::Random;
use model::reach::{reach, Reach};

use crate::run::{bytes, finish, run, spawn};
use crate::scripts::{named, random_words};
use crate::updates::geometry_text;

const SIGNS: [[u32; 3]; 6] = [
    [1, 1, 1],
    [1, 5, 3],
    [2, 2, 6],
    [8, 1, 2],
    [1, 5, 128],
    [128, 5, 128],
];

/// The name of a word, by the pages of both kinds.
fn word_name(geometry: &Geometry, index: u32) -> String {
    let (page, word) = (index / geometry.page_words(), index % geometry.page_words());
    let boot_pages = geometry.window_pages(Kind::Boot);
    if page < boot_pages {
        format!("word {word} of boot page {page}")
    } else {
        format!("word {word} of program page {}", page - boot_pages)
    }
}

/// What is printed for two images that differ in the words at some indices, ascending.
fn expected(numbers: [u32; 3], images: &[Vec<u32>; 2], indices: &[u32]) -> String {
    let geometry = Geometry::new(numbers).expect("a sign");
    let [image, other] = images;
    let names: Vec<String> = indices
        .iter()
        .map(|index| word_name(&geometry, *index))
        .collect();
    let one_word = |index: u32| {
        let (word, other) = (image[index as usize], other[index as usize]);
        let name = &names[0];
        format!("One word differs: {name}, 0x{word:08X} and 0x{other:08X}.\n")
    };
    match reach(numbers, image, other).expect("two images") {
        Reach::Action { place } => format!(
            "{}One action differs, at place {place}: the store of this word to NVMDATA{}.\n\
             Begun, run and cut alike, updates with these images differ in no other word of\n\
             the banks, and the same bank runs.\n",
            one_word(indices[0]),
            indices[0] % 4
        ),
        Reach::NoAction => format!(
            "{}It is in the sequence quad, which an update ignores: nothing differs.\n",
            one_word(indices[0])
        ),
        Reach::Words { count: 0, .. } => String::from("The images are equal.\n"),
        Reach::Words { count, .. } => format!(
            "{count} words differ.\nThe first is {}, the last is {}.\n",
            names[0],
            names[names.len() - 1]
        ),
    }
}

/// Images in two files, in both orders, and one of them from standard input.
fn check(name: &str, numbers: [u32; 3], image: &[u32], indices: &[u32]) {
    let mut other = image.to_vec();
    for index in indices {
        other[*index as usize] ^= 0x8000_0001;
    }
    let images = [image.to_vec(), other];
    let [first, second] =
        [0, 1].map(|file| named(&format!("{name}-{file}"), &bytes(&images[file])));
    let printed = |paths: [&str; 2]| {
        let text = format!("reach {} {} {}", geometry_text(numbers), paths[0], paths[1]);
        let arguments: Vec<&str> = text.split(' ').collect();
        let child = spawn(&arguments);
        finish(child, &bytes(&images[0])).printed()
    };
    let forth = expected(numbers, &images, indices);
    assert_eq!(printed([&first, &second]), forth);
    assert_eq!(printed(["-", &second]), forth);
    assert!(forth.lines().all(|line| line.len() <= 80), "{forth}");
    let [image, other] = images.clone();
    let back = expected(numbers, &[other, image], indices);
    assert_eq!(printed([&second, &first]), back);
}

/// The edges of pages, of the image and of the sequence quad, and any word.
#[test]
fn one_word() {
    let mut random = Random::new(41);
    for (number, numbers) in SIGNS.into_iter().enumerate() {
        let geometry = Geometry::new(numbers).expect("a sign");
        let (words, page) = (geometry.bank_words(), geometry.page_words());
        let sequence = geometry.sequence_index() as u32;
        let image = random_words(&mut random, words as usize);
        let edges = [0, 3, page - 1, words - page, words - 1];
        let around = [sequence - 1, sequence, sequence + 3, sequence + 4];
        let any = [random.below(words)];
        for index in [&edges[..], &around, &any].concat() {
            check(&format!("reach-{number}"), numbers, &image, &[index]);
        }
    }
}

#[test]
fn no_word_or_several() {
    let mut random = Random::new(42);
    for (number, numbers) in SIGNS.into_iter().enumerate() {
        let geometry = Geometry::new(numbers).expect("a sign");
        let words = geometry.bank_words();
        let sequence = geometry.sequence_index() as u32;
        let image = random_words(&mut random, words as usize);
        let all: Vec<u32> = (0..words).collect();
        for indices in [
            &[][..],
            &[0, words - 1],
            &[sequence, sequence + 1],
            &[0, sequence, words - 1],
            &all,
        ] {
            check(&format!("reach-several-{number}"), numbers, &image, indices);
        }
    }
}

#[test]
fn second_image_of_a_wrong_length() {
    let right = named("reach-right", &[0; 256]);
    for length in [0, 255, 257, 512] {
        let wrong = named(&format!("reach-wrong-{length}"), &vec![0; length]);
        let reason = "2: a bank, the image, the SRAM or the result has a wrong length";
        let cause = format!("{wrong:?} has {length} bytes, not the 256 of a bank");
        let ran = run(&["reach", "1", "1", "1", &right, &wrong]);
        assert_eq!(
            ran.reason(1),
            format!("reach: declined by {reason}: {cause}")
        );
    }
}
