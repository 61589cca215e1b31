//! `update`, `cut` and `row` of signs whose banks are in files, every byte beside the outside model; and the files that they write.

use std::fs;

use model::geometry::{Bank, Geometry};
use model::random::Random;
use model::sequence::word_of;

use crate::arguments::wrong;
use crate::outside::Sign;
use crate::rows::expected as row;
use crate::run::{bytes, finish, run, spawn, Ran};
use crate::scripts::{named, random_words};
use crate::updates::{cut, geometry_text, mask_text, update, KINDS};

const SIGNS: [[u32; 3]; 3] = [[1, 1, 1], [2, 2, 3], [1, 5, 9]];

/// A sign in the model whose update is accepted, with the options that name its files.
struct Own {
    numbers: [u32; 3],
    sign: Sign,
    banks: String,
    image: String,
}

/// Random banks, of which either runs and the other may be blank, or have a blank sequence word alone.
fn random_sign(random: &mut Random, name: &str, numbers: [u32; 3]) -> Own {
    let geometry = Geometry::new(numbers).expect("a sign");
    let (words, sequence) = (geometry.bank_words() as usize, geometry.sequence_index());
    let mut banks = [0, 1].map(|_| random_words(random, words));
    let (runs, low) = (random.below(2) as usize, random.between(1, 65_534) as u16);
    banks[runs][sequence] = word_of(low);
    match random.below(3) {
        0 => banks[1 - runs].fill(!0),
        1 => banks[1 - runs][sequence] = !0,
        _ => banks[1 - runs][sequence] = word_of(low - 1),
    }
    let image = random_words(random, words);
    let files = [("one", &banks[0]), ("two", &banks[1]), ("image", &image)];
    let [one, two, image_path] =
        files.map(|(file, words)| named(&format!("own-{name}-{file}"), &bytes(words)));
    Own {
        numbers,
        sign: Sign::started(numbers, banks, Some(image)),
        banks: format!("--bank1 {one} --bank2 {two}"),
        image: image_path,
    }
}

fn line(text: &str) -> Ran {
    run(&text.split(' ').collect::<Vec<_>>())
}

/// Files for both banks, with the options that name them.
fn saves(name: &str, end: &str) -> ([String; 2], String) {
    let paths = [1, 2].map(|bank| named(&format!("own-{name}-save{bank}{end}"), b"before"));
    let options = format!("--save1 {} --save2 {}", paths[0], paths[1]);
    (paths, options)
}

fn check_saved(paths: &[String; 2], banks: &[Vec<u32>; 2]) {
    for (path, bank) in paths.iter().zip(banks) {
        assert!(fs::read(path).expect("a bank") == bytes(bank), "{path}");
    }
}

#[test]
fn updates() {
    let (mut random, mut runs) = (Random::new(91), [0; 2]);
    for number in 0..24 {
        let mut own = random_sign(&mut random, "update", SIGNS[number % 3]);
        runs[own.sign.runs_before.number() as usize - 1] += 1;
        let expected = update(&mut own.sign);
        let (paths, saves) = saves("update", "");
        let (sizes, image, banks) = (geometry_text(own.numbers), &own.image, &own.banks);
        let ran = line(&format!("update {sizes} {image} {banks} {saves}"));
        assert_eq!(ran.printed(), expected);
        check_saved(&paths, &own.sign.updated());
    }
    assert!(runs.iter().all(|count| *count > 5), "{runs:?}");
}

/// At any place, in any way; the files have the banks as the cut leaves them.
#[test]
fn cuts() {
    let (mut random, mut runs) = (Random::new(92), [0; 2]);
    for number in 0..120 {
        let mut own = random_sign(&mut random, "cut", SIGNS[number % 3]);
        let total = own.sign.start().expect("it is accepted");
        let place = match random.one_in(3) {
            true => total - random.below(4),
            false => random.below(total + 1),
        };
        let (kind, mask) = (random.below(3), random.mask());
        own.sign.turns(0, place);
        let (expected, bank) = cut(own.sign.clone(), &format!("At place {place}"), kind, mask);
        runs[usize::from(bank != own.sign.runs_before)] += 1;
        own.sign.restart(kind, mask);
        let (paths, saves) = saves("cut", "");
        let (sizes, image, banks) = (geometry_text(own.numbers), &own.image, &own.banks);
        let (kind, mask) = (KINDS[kind as usize], mask_text(mask));
        let ran = line(&format!(
            "cut {sizes} {place} {kind} {mask} --image {image} {saves} {banks}"
        ));
        assert_eq!(ran.printed(), expected);
        check_saved(&paths, &own.sign.banks);
    }
    assert!(runs.iter().all(|count| *count > 10), "{runs:?}");
}

/// What a cut leaves is taken up by another command: the start is accepted, and the cut goes on as with --then.
#[test]
fn cut_after_cut() {
    let own = random_sign(&mut Random::new(93), "again", [1, 2, 3]);
    let (paths, saves) = saves("again", ".hex");
    let (image, banks) = (&own.image, &own.banks);
    line(&format!(
        "cut 1 2 3 38 other 5A --image {image} {banks} {saves}"
    ))
    .printed();
    let left = format!("--bank1 {} --bank2 {}", paths[0], paths[1]);
    let accepted = line(&format!("start 1 2 3 {image} {left}")).printed();
    // 12 + 8×5 + 112×5
    assert_eq!(accepted, "The update is accepted. It has 612 actions.\n");
    let second = line(&format!("cut 1 2 3 300 0 --image {image} {left}")).printed();
    let both = "cut 1 2 3 38 other 5A --then 300 0";
    let both = line(&format!("{both} --image {image} {banks}")).printed();
    let from_place = |text: &str| {
        let (_, rest) = text.split_once("At place 300 ").expect("the second cut");
        rest.to_string()
    };
    assert_eq!(from_place(&second), from_place(&both));
}

/// The pictures of an erasing update by hand: the last boot page is erased first, then boot page 0, of which 3 of 8 quads are.
#[test]
fn erasing_is_seen() {
    let printed = line("cut 1 2 6 38 other FF").printed();
    let expected = "\
The update has 972 actions.
At place 38 the supply fails while an operation runs:
erase of boot page 0 of bank 2, step 4 of 8.

        boot  program
bank 1* oo    oooooo
        ^^
bank 2  ~.    oooooo

The reset (other) tears quad 3 of boot page 0 of bank 2:
0100000C 0100000D 0100000E 0100000F becomes
010000FF 010000FF 010000FF 010000FF.
After the reset and start-up bank 1 runs:
the other bank has no valid sequence word.
";
    assert!(printed.starts_with(expected), "{printed}");
    let before = line("cut 1 2 6 12 other").printed();
    let both = "bank 1* oo    oooooo\n        ^^\nbank 2  oo    oooooo\n";
    assert!(before.contains(both), "{before}");
    let higher = "bank 1 runs:\nits sequence number is the higher one.\n";
    assert!(before.contains(higher), "{before}");
}

/// All signs have the same banks and the same image.
#[test]
fn rows() {
    let (mut random, mut runs) = (Random::new(94), [0; 2]);
    for number in 0..16 {
        let own = random_sign(&mut random, "row", SIGNS[number % 2]);
        runs[own.sign.runs_before.number() as usize - 1] += 1;
        let total = own.sign.start().expect("it is accepted");
        let (signs, k) = (random.between(1, 4), random.between(1, 3));
        let cut = random
            .one_in(2)
            .then(|| signs * total - random.below(9 * signs));
        let option = cut.map_or(String::new(), |cut| format!(" --cut {cut}"));
        let (sizes, image, banks) = (geometry_text(own.numbers), &own.image, &own.banks);
        let ran = line(&format!("row {signs} {k} {sizes} {image} {banks}{option}"));
        assert_eq!(ran.printed(), row(own.sign, [signs, k], cut, 72));
    }
    assert!(runs.iter().all(|count| *count > 3), "{runs:?}");
}

/// Bank 2 is the old one, and the object names it.
#[test]
fn object_of_a_row() {
    let (mut random, name) = (Random::new(95), "row-object");
    let mut own = random_sign(&mut random, name, [1, 1, 1]);
    while own.sign.runs_before == Bank::One {
        own = random_sign(&mut random, name, [1, 1, 1]);
    }
    let banks = &own.banks;
    let printed = |cut: u32| line(&format!("row 1 1 1 1 1 {banks} --json --cut {cut}")).printed();
    let signs = |text: &str| {
        text.split_once("\"signs\":")
            .expect("the signs")
            .1
            .to_string()
    };
    let old = "[{\"sign\":0,\"place\":250,\"bank\":2,\"runs\":\"old\"}]}\n";
    assert_eq!(signs(&printed(250)), old);
    let new = "[{\"sign\":0,\"place\":251,\"bank\":1,\"runs\":\"new\"}]}\n";
    assert_eq!(signs(&printed(251)), new);
}

/// An option that names the sign or a file counts for all cuts, wherever it stands.
#[test]
fn where_the_options_stand() {
    let own = random_sign(&mut Random::new(96), "stand", [1, 1, 1]);
    let (image, banks) = (&own.image, &own.banks);
    let front = format!("cut 1 1 1 19 1 FF --image {image} {banks}");
    let expected = line(&format!("{front} --then 40 0")).printed();
    for text in [
        format!("cut {banks} 1 1 1 19 1 FF --then 40 0 --image {image}"),
        format!("cut 1 1 1 19 1 FF --then --image {image} 40 {banks} 0"),
    ] {
        assert_eq!(line(&text).printed(), expected, "{text}");
    }
    let twice = "cut 1 1 1 0 0 --image x --then 0 0 --image y";
    wrong(twice, "--image is given twice");
    let both = "--bank1 and --bank2 go together";
    wrong("cut 1 1 1 0 0 --then 0 0 --bank2 x", both);
    wrong(
        "cut 1 1 1 0 0 x",
        "MASK is \"x\", not one or four hexadecimal words",
    );
}

/// A bank from standard input, and one to standard output in place of the text.
#[test]
fn banks_in_pipes() {
    let mut own = random_sign(&mut Random::new(97), "pipe", [1, 1, 1]);
    let two = own.banks.split(' ').next_back().expect("bank 2");
    let text = format!("update 1 1 1 {} --bank1 - --bank2 {two}", own.image);
    let one = bytes(&own.sign.banks[0]);
    let expected = update(&mut own.sign);
    let child = spawn(&text.split(' ').collect::<Vec<_>>());
    assert_eq!(finish(child, &one).printed(), expected);
    for (bank, option) in ["--save1 -", "--save2 -"].into_iter().enumerate() {
        let text = format!("update 1 1 1 {} {} {option}", own.image, own.banks);
        let ran = line(&text);
        assert_eq!((ran.status, ran.err.as_str()), (Some(0), ""));
        assert_eq!(ran.out, bytes(&own.sign.banks[bank]));
    }
    let (paths, saves) = saves("pipe", "");
    let saves = saves.replace(&paths[0], "-");
    let ran = line(&format!("cut 1 1 1 0 0 {} {saves}", own.banks));
    assert_eq!(ran.out, one);
    assert_eq!(
        fs::read(&paths[1]).expect("bank 2"),
        fs::read(two).expect("bank 2")
    );
    for command in ["update 1 1 1", "cut 1 1 1 0 0", "play -"] {
        let both = "--save1 and --save2 are both -";
        wrong(&format!("{command} --save1 - --save2 -"), both);
    }
    let ran = line("play /dev/null --save1 -");
    assert_eq!(ran.out, bytes(&Sign::bench().banks[0]));
}
