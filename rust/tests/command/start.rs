//! `yohrundel start`: whether a sign accepts an image, and why not.

use model::sequence::word_of;

use crate::arguments::wrong;
use crate::json::{read, Json};
use crate::objects::{documented, object, sorted};
use crate::run::{bytes, run, Ran};
use crate::scripts::named;

/// What the paper's numbers say.
const SEQUENCE: &str = "the sequence words or the mapping do not allow an update";
const LAST: &str = "the last sequence number is in use";
const PROTECTION: &str = "the protection does not allow an update";

/// A start of a sign with Q = B = P = 1 whose banks are zeros but for their sequence words, with options.
fn start(name: &str, [one, two]: [u32; 2], options: &str) -> Ran {
    let [one, two] = [one, two].map(|word| {
        let mut bank = vec![0; 64];
        bank[28] = word;
        bytes(&bank)
    });
    let [one, two] = [("one", one), ("two", two)]
        .map(|(bank, words)| named(&format!("start-{name}-{bank}"), &words));
    let line = format!("start 1 1 1 --bank1 {one} --bank2 {two}{options}");
    run(&line.split(' ').collect::<Vec<_>>())
}

/// It is declined by a number, with what that says and with a cause.
fn declined(ran: Ran, number: u32, sentence: &str, cause: &str) {
    let expected = format!("start: declined by {number}: {sentence}: {cause}");
    assert_eq!(ran.reason(1), expected);
}

/// "Total 12 + 8×N + 112×N×Q"
#[test]
fn accepted_starts() {
    for ([q, b, p], total) in [
        ([1, 1, 1], 252),
        ([1, 2, 6], 972),
        ([128, 5, 64], 989_748),
        ([128, 5, 128], 1_907_764),
    ] {
        let printed = run(&["start", &format!("{q}"), &format!("{b}"), &format!("{p}")]);
        let expected = format!("The update is accepted. It has {total} actions.\n");
        assert_eq!(printed.printed(), expected);
    }
    let accepted = "The update is accepted. It has 252 actions.\n";
    // "t = 65,534 starts", "0xFFFFFFFF starts"; bank 2 runs where its number is the higher one.
    for words in [
        [word_of(65_534), 0xFFFF_FFFF],
        [word_of(1), word_of(0)],
        [word_of(1), word_of(1)],
        [word_of(1), word_of(2)],
        [0xFFFF_FFFF, word_of(7)],
        [word_of(1), 0x0001_0001],
    ] {
        assert_eq!(
            start("accepted", words, "").printed(),
            accepted,
            "{words:X?}"
        );
    }
    let words = [word_of(1), !0];
    // PWP just below P×128×Q, and UBWPULOCK alone.
    let options = " --register NVMPWP=7F --register NVMBWP=C0";
    assert_eq!(start("accepted-set", words, options).printed(), accepted);
}

/// Neither word is valid; the other could become it by a torn erase; a reset would choose the other bank; the swaps differ.
#[test]
fn declined_by_10() {
    let invalid = "bank 1, on the lower alias, has no valid sequence word: 0x";
    let torn = |bank| {
        format!("a torn erase could make bank {bank}'s sequence word valid: no bit position is 1 in both halves of 0x00000000")
    };
    let other = |bank| {
        format!("a reset would choose bank {bank}, as its sequence number is the higher one: ")
    };
    for (one, two, options, cause) in [
        (!0, !0, "", format!("{invalid}FFFFFFFF")),
        (0, !0, "", format!("{invalid}00000000")),
        (word_of(1), 0, "", torn(2)),
        (0, word_of(1), "", torn(1)),
        (word_of(65_535), 0, "", torn(2)),
        (
            word_of(1),
            word_of(2),
            " --register NVMCON=0",
            other(2) + "bank 1 has 0xFFFE0001, bank 2 0xFFFD0002",
        ),
        (
            word_of(2),
            word_of(1),
            " --register NVMCON=C0",
            other(1) + "bank 1 has 0xFFFD0002, bank 2 0xFFFE0001",
        ),
        (
            word_of(2),
            word_of(1),
            " --register NVMCON=80",
            String::from("NVMCON is 0x00000080: PFSWAP = 1 and BFSWAP = 0"),
        ),
    ] {
        declined(start("ten", [one, two], options), 10, SEQUENCE, &cause);
    }
}

/// "t = 65,534 starts, 65,535 doesn't"
#[test]
fn declined_by_11() {
    let last = 0x0000_FFFF;
    let cause = "T is 65535: bank 1 has the sequence word 0x0000FFFF";
    declined(start("eleven", [last, !0], ""), 11, LAST, cause);
    declined(start("eleven", [last, last], ""), 11, LAST, cause);
    let cause = "T is 65535: bank 2 has the sequence word 0x0000FFFF";
    declined(start("eleven", [word_of(9), last], ""), 11, LAST, cause);
    let options = " --register NVMBWP=40";
    declined(start("eleven", [!0, last], options), 11, LAST, cause);
}

/// "UBWPULOCK = 0 or PWP at least P×128×Q"
#[test]
fn declined_by_12() {
    let words = [word_of(1), !0];
    for (options, cause) in [
        (
            " --register NVMBWP=9F5F",
            "NVMBWP is 0x00009F5F: UBWPULOCK = 0",
        ),
        (
            " --register NVMPWP=80",
            "NVMPWP is 0x00000080: PWP is not below 0x000080",
        ),
        (
            " --register NVMPWP=80FFFFFF",
            "NVMPWP is 0x80FFFFFF: PWP is not below 0x000080",
        ),
    ] {
        declined(start("twelve", words, options), 12, PROTECTION, cause);
    }
}

/// A record that cannot be, and an operation that runs.
#[test]
fn declined_by_3_and_5() {
    let words = [word_of(1), !0];
    for (register, cause) in [
        ("NVMBWP=9F9F", "NVMBWP is 0x00009F9F, with bit 6 clear"),
        (
            "NVMCON=100",
            "NVMCON is 0x00000100, with a bit outside its mask 0x0000F0CF",
        ),
        ("NVMCON=8000", "NVMCON is 0x00008000: WR = 1 and WRERR = 0"),
        (
            "NVMCON=E004",
            "the launched NVMADDR is 0x00000000, outside the four windows",
        ),
        (
            "NVMCON=A001",
            "NVMCON is 0x0000A001: WR = 1, but no steps begin for NVMOP 1",
        ),
    ] {
        let ran = start("three", words, &format!(" --register {register}"));
        declined(ran, 3, "the device record is impossible", cause);
    }
    let options = " --register NVMCON=E004 --register NVMADDR=1FC20000";
    declined(
        start("five", words, options),
        5,
        "an operation is running",
        "an update start with WR = 1: NVMCON is 0x0000E004",
    );
}

/// The other commands say the same of a sign that does not accept their image, and do nothing.
#[test]
fn other_commands() {
    for command in [
        "update 1 1 1",
        "cut 1 1 1 0 0",
        "row 1 1 1 1 1",
        "script 1 1 1",
    ] {
        let line = format!("{command} --register NVMPWP=80");
        let arguments: Vec<&str> = line.split(' ').collect();
        let cause = "NVMPWP is 0x00000080: PWP is not below 0x000080";
        let expected = format!("{}: declined by 12: {PROTECTION}: {cause}", arguments[0]);
        assert_eq!(run(&arguments).reason(1), expected);
    }
}

/// The object of a run that ends with a status and says nothing else.
fn answered(ran: Ran, status: i32) -> Json {
    assert_eq!((ran.status, ran.err.as_str()), (Some(status), ""));
    let text = String::from_utf8(ran.out).expect("text");
    let object = read(&text).unwrap_or_else(|| panic!("{text}"));
    assert_eq!(sorted(object.paths()), documented("start"));
    object
}

fn declined_object(decline: u32, sentence: &str, cause: Option<&str>) -> Json {
    object([
        ("accepted", Json::Bool(false)),
        ("total", Json::Null),
        ("decline", decline.into()),
        ("sentence", sentence.into()),
        ("cause", cause.into()),
    ])
}

#[test]
fn objects() {
    let accepted = object([
        ("accepted", Json::Bool(true)),
        ("total", 252.into()),
        ("decline", Json::Null),
        ("sentence", Json::Null),
        ("cause", Json::Null),
    ]);
    assert_eq!(
        answered(start("object", [word_of(1), !0], " --json"), 0),
        accepted
    );
    let ran = start("object-11", [0xFFFF, !0], " --json");
    let expected = declined_object(
        11,
        LAST,
        Some("T is 65535: bank 1 has the sequence word 0x0000FFFF"),
    );
    assert_eq!(answered(ran, 1), expected);
    let ran = run(&["start", "3", "1", "1", "--json"]);
    let sentence = "the quads per row, boot pages or program pages are out of range";
    let cause = "Q is 3, not 1, 2, 4, 8, 16, 32, 64 or 128";
    assert_eq!(answered(ran, 1), declined_object(1, sentence, Some(cause)));
    let short = named("start-short", &[0; 255]);
    let ran = run(&["start", "1", "1", "1", "--json", &short]);
    let sentence = "a bank, the image, the SRAM or the result has a wrong length";
    let cause = format!("{short:?} has 255 bytes, not the 256 of a bank");
    assert_eq!(answered(ran, 1), declined_object(2, sentence, Some(&cause)));
    let ran = run(&["start", "1", "1", "1", "--json", "/no"]);
    let reason = "start: \"/no\" cannot be read: No such file or directory (os error 2)";
    assert_eq!(ran.reason(3), reason);
}

#[test]
fn arguments_that_are_not_understood() {
    wrong("start", "Q is missing");
    wrong("start 1 1", "P is missing");
    wrong("start 1 1 1 - -", "\"-\" is one argument too many");
    wrong("start 1 1 1 --bank1 -", "--bank1 and --bank2 go together");
    wrong("start 1 1 1 --save1 x", "there is no option \"--save1\"");
}
