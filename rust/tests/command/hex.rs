//! Banks and images in files of Intel HEX, there and back.

use std::fs;

use model::geometry::Geometry;
use model::random::Random;
use model::sequence::word_of;

use crate::hex_text::{addresses, end, read, record, upper};
use crate::run::{bytes, run};
use crate::scripts::{named, random_words};

const SIGNS: [[u32; 3]; 5] = [[1, 1, 1], [2, 2, 3], [1, 5, 128], [16, 1, 7], [128, 5, 2]];

/// A bank of random words, some pages and some quads of which are blank.
fn random_bank(random: &mut Random, geometry: &Geometry) -> Vec<u32> {
    let mut bank = random_words(random, geometry.bank_words() as usize);
    for page in bank.chunks_mut(geometry.page_words() as usize) {
        if random.one_in(3) {
            page.fill(!0);
        }
        let quad = random.below(geometry.page_quads()) as usize;
        page[4 * quad..4 * quad + 4].fill(!0);
    }
    bank
}

/// A text of a bank with records of any lengths in any order, small and capital letters, start addresses, blank lines, and without some
/// of the bytes of all ones.
fn random_text(random: &mut Random, geometry: &Geometry, bank: &[u32]) -> String {
    let (addresses, bytes) = (addresses(geometry), bytes(bank));
    let (mut blocks, mut at) = (Vec::new(), 0);
    while at < bytes.len() {
        let most = if random.one_in(4) { 255 } else { 32 };
        let length = random.between(1, most) as usize;
        let to = bytes.len().min(at + length);
        // No block reaches from the boot pages into the program pages.
        let to = (at + 1..to)
            .find(|byte| addresses[*byte] != addresses[*byte - 1] + 1)
            .unwrap_or(to);
        if bytes[at..to].iter().any(|byte| *byte != 0xFF) || random.one_in(3) {
            blocks.push((addresses[at], &bytes[at..to]));
        }
        at = to;
    }
    for last in (1..blocks.len()).rev() {
        blocks.swap(last, random.below(last as u32 + 1) as usize);
    }
    let mut lines = vec![record(5, 0, &[0x9D, 0, 0, 0]), String::new()];
    for (address, data) in blocks {
        lines.push(upper(address >> 16));
        lines.push(record(0, address & 0xFFFF, data));
        if random.one_in(50) {
            lines.extend([record(3, 0, &[1, 2, 3, 4]), String::from("  ")]);
        }
    }
    lines.extend([end(), String::new()]);
    let text = lines.join(random.pick(&["\n", "\r\n"]));
    match random.one_in(2) {
        true => text.to_lowercase(),
        false => text,
    }
}

/// Plays nothing on a sign with two banks in files, and writes them to two others.
fn copy(numbers: [u32; 3], banks: [&str; 2], saves: [&str; 2]) {
    let [q, b, p] = numbers;
    let sizes = format!("{q},{b},{p}");
    let [one, two] = banks;
    let [save1, save2] = saves;
    let printed = run(&[
        "play",
        "/dev/null",
        "--sizes",
        &sizes,
        "--bank1",
        one,
        "--bank2",
        two,
        "--save1",
        save1,
        "--save2",
        save2,
    ])
    .printed();
    assert_eq!(printed, "");
}

#[test]
fn banks_that_are_read() {
    let mut random = Random::new(71);
    for number in 0..40 {
        let numbers = SIGNS[number % SIGNS.len()];
        let geometry = Geometry::new(numbers).expect("a sign");
        let banks = [0, 1].map(|_| random_bank(&mut random, &geometry));
        let texts = [0, 1].map(|bank| random_text(&mut random, &geometry, &banks[bank]));
        let from = [0, 1].map(|bank: usize| {
            let end = ["hex", "ihx", "ihex", "HEX", "iHeX"][(number + bank) % 5];
            named(&format!("read-{bank}.{end}"), texts[bank].as_bytes())
        });
        let to = ["one", "two"].map(|name| named(&format!("read-{name}.bin"), b""));
        copy(numbers, [&from[0], &from[1]], [&to[0], &to[1]]);
        for (path, bank) in to.iter().zip(&banks) {
            assert!(fs::read(path).expect("a bank") == bytes(bank), "{number}");
        }
    }
}

/// All pages but the blank ones are there, and the text is read again.
#[test]
fn banks_that_are_written() {
    let mut random = Random::new(72);
    for number in 0..40 {
        let numbers = SIGNS[number % SIGNS.len()];
        let geometry = Geometry::new(numbers).expect("a sign");
        let banks = [0, 1].map(|_| random_bank(&mut random, &geometry));
        let raw = [0, 1].map(|bank| named(&format!("raw-{bank}.bin"), &bytes(&banks[bank])));
        let hex = ["ihex", "Hex"].map(|end| named(&format!("written.{end}"), b""));
        copy(numbers, [&raw[0], &raw[1]], [&hex[0], &hex[1]]);
        for (path, bank) in hex.iter().zip(&banks) {
            let text = fs::read_to_string(path).expect("a text");
            let bytes = bytes(bank);
            let page_bytes = geometry.page_bytes() as usize;
            let all = addresses(&geometry).into_iter().zip(bytes.iter().copied());
            let expected = all.enumerate().filter(|(index, _)| {
                let page = &bytes[index / page_bytes * page_bytes..][..page_bytes];
                page.iter().any(|byte| *byte != 0xFF)
            });
            assert!(read(&text) == expected.map(|(_, pair)| pair).collect());
        }
        let again = ["one", "two"].map(|name| named(&format!("again-{name}"), b""));
        copy(numbers, [&hex[0], &hex[1]], [&again[0], &again[1]]);
        for (path, bank) in again.iter().zip(&banks) {
            assert!(fs::read(path).expect("a bank") == bytes(bank), "{number}");
        }
    }
}

/// Each line by hand: 16 bytes a record, and the blank program page left out.
#[test]
fn text_of_a_bank() {
    let mut bank = vec![0; 32];
    bank.resize(64, !0);
    bank[28..32].copy_from_slice(&[word_of(2), !0, !0, !0]);
    let zeros = "0".repeat(32);
    let expected = format!(
        ":020000041FC01B\n\
         :10000000{zeros}F0\n\
         :10001000{zeros}E0\n\
         :10002000{zeros}D0\n\
         :10003000{zeros}C0\n\
         :10004000{zeros}B0\n\
         :10005000{zeros}A0\n\
         :10006000{zeros}90\n\
         :100070000200FDFFFFFFFFFFFFFFFFFFFFFFFFFF8E\n\
         :00000001FF\n"
    );
    let raw = named("by-hand.bin", &bytes(&bank));
    let blank = named("by-hand-blank.bin", &[0xFF; 256]);
    let hex = ["one", "two"].map(|name| named(&format!("by-hand-{name}.hex"), b""));
    copy([1, 1, 1], [&raw, &blank], [&hex[0], &hex[1]]);
    let texts = hex.map(|path| fs::read_to_string(path).expect("a text"));
    assert_eq!(texts, [expected, String::from(":00000001FF\n")]);
}

/// A single byte is given; all others are ones.
#[test]
fn gaps_are_blank() {
    for (address, index) in [
        (0x1FC0_0000, 0),
        (0x1FC0_0081, 129),
        (0x1FC0_00FF, 255),
        (0x1D00_0000, 256),
        (0x1D00_017F, 639),
    ] {
        let lines = [
            upper(address >> 16),
            record(0, address & 0xFFFF, &[7]),
            end(),
        ];
        let hex = named("gaps.hex", lines.join("\n").as_bytes());
        let to = ["one", "two"].map(|name| named(&format!("gaps-{name}"), b""));
        copy([1, 2, 3], [&hex, &hex], [&to[0], &to[1]]);
        let mut expected = [0xFF; 640];
        expected[index] = 7;
        for path in to {
            assert_eq!(fs::read(path).expect("a bank"), expected);
        }
    }
}

/// A record over a border of 64 K goes on behind it, where its address is linear.
#[test]
fn record_over_64_k() {
    let lines = [upper(0x1FC0), record(0, 0xFFFE, &[1, 2, 3, 4]), end()];
    let hex = named("over.hex", lines.join("\n").as_bytes());
    let to = ["one", "two"].map(|name| named(&format!("over-{name}"), b""));
    copy([128, 5, 1], [&hex, &hex], [&to[0], &to[1]]);
    let mut expected = vec![0xFF; 6 * 128 * 128];
    expected[0xFFFE..0x1_0002].copy_from_slice(&[1, 2, 3, 4]);
    assert!(fs::read(&to[0]).expect("a bank") == expected);
}

/// A file is Intel HEX by the end of its name alone.
#[test]
fn names_of_other_files() {
    let bank = bytes(&[0x0102_0304; 64]);
    for name in [
        "other.hex.bin",
        "other.he",
        "otherhex",
        "other.hexx",
        "other.ihx~",
    ] {
        let path = named(name, &bank);
        let to = ["one", "two"].map(|end| named(&format!("{name}-{end}"), b""));
        copy([1, 1, 1], [&path, &path], [&to[0], &to[1]]);
        assert_eq!(fs::read(&to[1]).expect("a bank"), bank);
    }
    let path = named(".hex", format!("{}\n", end()).as_bytes());
    let to = ["one", "two"].map(|name| named(&format!("point-{name}"), b""));
    copy([1, 1, 1], [&path, &path], [&to[0], &to[1]]);
    assert_eq!(fs::read(&to[0]).expect("a bank"), [0xFF; 256]);
}

/// Commands print the same for banks and images in either format.
#[test]
fn commands_that_read_either() {
    let mut random = Random::new(73);
    let numbers = [2, 1, 2];
    let geometry = Geometry::new(numbers).expect("a sign");
    let names = ["one", "two", "image", "changed"];
    let mut words = names.map(|_| random_words(&mut random, geometry.bank_words() as usize));
    words[0][geometry.sequence_index()] = word_of(8);
    words[1][geometry.sequence_index()] = word_of(9);
    for (name, words) in names.iter().zip(&words) {
        named(&format!("either-{name}.bin"), &bytes(words));
        let text = random_text(&mut random, &geometry, words);
        named(&format!("either-{name}.hex"), text.as_bytes());
    }
    let sign = "--bank1 one --bank2 two";
    for line in [
        format!("start 2 1 2 image {sign}"),
        format!("update 2 1 2 image {sign}"),
        format!("cut 2 1 2 700 other FF --image image {sign}"),
        format!("row 2 1 2 1 2 image {sign}"),
        format!("script 2 1 2 image {sign}"),
        format!("play /dev/null --restart --sizes 2,1,2 {sign} --image image"),
        String::from("reach 2 1 2 image changed"),
        String::from("sheet 2 1 2 one two"),
    ] {
        let [raw, hex] = ["bin", "hex"].map(|end| {
            let words = line.split(' ').map(|word| match names.contains(&word) {
                true => format!("{}/either-{word}.{end}", env!("CARGO_TARGET_TMPDIR")),
                false => word.into(),
            });
            run(&words.collect::<Vec<String>>())
        });
        assert_eq!((raw.status, raw.err.as_str()), (Some(0), ""), "{line}");
        assert!(!raw.out.is_empty() && raw == hex, "{line}");
    }
}

/// The largest sign.
#[test]
fn largest_banks() {
    let mut random = Random::new(74);
    let numbers = [128, 5, 128];
    let geometry = Geometry::new(numbers).expect("a sign");
    let bank = random_words(&mut random, geometry.bank_words() as usize);
    let raw = named("largest-raw", &bytes(&bank));
    let hex = ["one", "two"].map(|name| named(&format!("largest-{name}.hex"), b""));
    copy(numbers, [&raw, &raw], [&hex[0], &hex[1]]);
    let text = fs::read_to_string(&hex[1]).expect("a text");
    // A record for every 16 bytes, one for each border of 64 K, and the end.
    let records = 133 * 128 * 128 / 16 + 32 + 2 + 1;
    assert_eq!(text.lines().count(), records);
    let again = ["one", "two"].map(|name| named(&format!("largest-again-{name}"), b""));
    copy(numbers, [&hex[0], &hex[1]], [&again[0], &again[1]]);
    assert!(fs::read(&again[1]).expect("a bank") == bytes(&bank));
}
