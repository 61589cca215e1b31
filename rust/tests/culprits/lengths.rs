//! Declines 1, 2, 17, 18 and 22.

use yohrundel::*;

use crate::sign::{Sign, SMALL};
use crate::{text, told, Told};

/// A start-up asks for no memory, so that sizes alone decline it.
fn sizes(q: u32, b: u32, p: u32) -> Told {
    let geometry = Geometry { q, b, p };
    let sign = Sign::new();
    Sign { geometry, ..sign }.start_up()
}

#[test]
fn sizes_out_of_range() {
    for q in [0, 3, 5, 7, 9, 127, 129, 256, u32::MAX] {
        let expected = format!("Q is {q}, not 1, 2, 4, 8, 16, 32, 64 or 128");
        assert_eq!(sizes(q, 1, 1), text(&expected));
    }
    for q in [1, 2, 4, 8, 16, 32, 64, 128] {
        assert_eq!(sizes(q, 1, 1), None);
    }
    for b in [0, 6, u32::MAX] {
        assert_eq!(sizes(1, b, 1), text(&format!("B is {b}, not 1 to 5")));
    }
    for p in [0, 129, u32::MAX] {
        assert_eq!(sizes(1, 1, p), text(&format!("P is {p}, not 1 to 128")));
    }
    assert_eq!(sizes(1, 5, 128), None);
}

/// Q before B before P.
#[test]
fn first_size_out_of_range() {
    assert_eq!(
        sizes(3, 0, 0),
        text("Q is 3, not 1, 2, 4, 8, 16, 32, 64 or 128")
    );
    assert_eq!(sizes(4, 0, 0), text("B is 0, not 1 to 5"));
}

/// A text of each lent memory that must be one bank long.
fn bank_text(of: &str, words: usize) -> Told {
    text(&format!("{of} has {words} words, not 64"))
}

/// None, a word short and a word long.
const WRONG: [usize; 3] = [0, 63, 65];

#[test]
fn lengths_of_a_sign() {
    for words in WRONG {
        let [one, two, image] = [(); 3].map(|()| vec![0; words]);
        let first = Sign { one, ..Sign::new() };
        let second = Sign { two, ..Sign::new() };
        let third = Sign {
            image,
            ..Sign::new()
        };
        for (sign, of) in [(&first, "bank 1"), (&second, "bank 2")] {
            let calls = [
                sign.lower_bank(),
                sign.step(),
                sign.reset(0),
                sign.play(&[]),
            ];
            let all = calls
                .into_iter()
                .chain([sign.flash_read(0), sign.page_sheet(0)]);
            all.for_each(|told| assert_eq!(told, bank_text(of, words)));
        }
        for (sign, of) in [(first, "bank 1"), (second, "bank 2"), (third, "the image")] {
            for told in [sign.update_start(), sign.turn(0), sign.write_script(0)] {
                assert_eq!(told, bank_text(of, words));
            }
        }
    }
}

#[test]
fn lengths_of_other_banks_and_images() {
    let sign = Sign::new();
    let scratch = |first, second| sign.smallest([first, second, 0], &[], 6);
    for words in WRONG {
        assert_eq!(page_of(words), bank_text("the bank", words));
        assert_eq!(reach_of(words, 64), bank_text("the image", words));
        assert_eq!(reach_of(64, words), bank_text("the other image", words));
        assert_eq!(scratch(words, 64), bank_text("scratch bank 1", words));
        assert_eq!(scratch(64, words), bank_text("scratch bank 2", words));
    }
    assert_eq!([page_of(64), reach_of(64, 64)], [None, None]);
}

fn page_of(words: usize) -> Told {
    let bank = vec![0; words];
    told(culprit::page(SMALL, &bank, 0), page(SMALL, &bank, 0))
}

fn reach_of(words: usize, other_words: usize) -> Told {
    let (image, other) = (vec![0; words], vec![0; other_words]);
    told(
        culprit::reach(SMALL, &image, &other),
        reach(SMALL, &image, &other),
    )
}

#[test]
fn length_of_the_sram() {
    let sram = |words| Sign {
        sram: vec![0; words],
        ..Sign::running()
    };
    let expected = text("the SRAM has 16385 words, more than 16384");
    let sign = sram(16_385);
    assert_eq!(sign.step(), expected);
    assert_eq!(sign.reset(3), expected);
    assert_eq!(sign.turn(0), expected);
    assert_eq!(sign.play(&[1]), expected);
    assert_eq!(sign.flash_read(1), expected);
    assert_eq!(sign.smallest([64, 64, 9], &[], 6), expected);
    assert_eq!(sram(16_384).step(), None);
}

#[test]
fn length_of_a_result() {
    let step = [1, 0, 0, 0, 0, 0, 0, 0];
    for bytes in [0, 7, 9] {
        let expected = text(&format!("the result has {bytes} bytes, the script 8"));
        assert_eq!(Sign::new().smallest([64, 64, bytes], &step, 6), expected);
    }
    assert_eq!(Sign::new().smallest([64, 64, 8], &step, 6), None);
}

/// The script has 8 × 252 bytes, the sheet 34 × 2.
#[test]
fn buffers_too_short() {
    let sign = Sign::new();
    let script = text("the buffer has 2015 bytes, the script 2016");
    assert_eq!(sign.write_script(2_015), script);
    assert_eq!(sign.write_script(2_016), None);
    assert_eq!(
        sign.page_sheet(67),
        text("the buffer has 67 bytes, the sheet 68")
    );
    assert_eq!(sign.page_sheet(68), None);
}

#[test]
fn lengths_of_byte_lanes() {
    let told_of = |source: usize, target: usize| {
        let (source, mut target) = (vec![1; source], vec![2; target]);
        let named = culprit::lanes(&source, &target);
        let out = told(named.clone(), lanes_out(&source, &mut target));
        assert_eq!(told(named, lanes_back(&source, &mut target)), out);
        out
    };
    assert_eq!(
        told_of(8, 12),
        text("the source has 8 bytes, the target 12")
    );
    assert_eq!(told_of(5, 4), text("the source has 5 bytes, the target 4"));
    assert_eq!(told_of(6, 6), text("both have 6 bytes"));
    assert_eq!([told_of(0, 0), told_of(4, 4)], [None, None]);
}
