//! Arguments that are not understood or declined.

use std::ffi::OsStr;
use std::os::unix::ffi::OsStrExt;

use crate::run::{file, run};

#[test]
fn no_such_command() {
    let none: [&str; 0] = [];
    let reason = "COMMAND is missing; try yohrundel --help";
    assert_eq!(run(&none).reason(2), reason);
    let reason = "there is no command \"paly\", the nearest is play; try yohrundel --help";
    assert_eq!(run(&["paly"]).reason(2), reason);
    let reason = "there is no command \"erase\"; try yohrundel --help";
    assert_eq!(run(&["erase"]).reason(2), reason);
    let reason = "there is no command \"\\xFF\"; try yohrundel --help";
    assert_eq!(run(&[OsStr::from_bytes(b"\xFF")]).reason(2), reason);
}

/// Arguments of a command that get a reason and the status 2.
pub fn wrong(arguments: &str, reason: &str) {
    let arguments: Vec<&str> = arguments.split(' ').collect();
    let command = arguments[0];
    let expected = format!("{command}: {reason}; try yohrundel {command} --help");
    assert_eq!(run(&arguments).reason(2), expected);
}

#[test]
fn arguments_that_are_not_understood() {
    wrong("play", "FILE is missing");
    wrong("play a b", "\"b\" is one argument too many");
    wrong("play --fast", "there is no option \"--fast\"");
    wrong("update 1 1", "P is missing");
    wrong(
        "update 1 x 1",
        "B is \"x\", not a number from 0 to 4294967295",
    );
    let number = "\"4294967296\", not a number from 0 to 4294967295";
    wrong("update 4294967296 1 1", &format!("Q is {number}"));
    wrong("update 1 1 1 - -", "\"-\" is one argument too many");
    wrong("reach 1 1", "P is missing");
    wrong("reach 1 1 1", "IMAGE1 is missing");
    wrong("reach 1 1 1 -", "IMAGE2 is missing");
    wrong("reach 1 1 1 - - -", "\"-\" is one argument too many");
    wrong("reach 1 1 1 - --all", "there is no option \"--all\"");
    wrong("plan 0 1", "WINDOW is missing");
    wrong("lanes", "the way is missing");
    wrong("lanes forth -", "the way is \"forth\", not out or back");
    wrong("lanes out", "FILE is missing");
    wrong("lanes out - -", "\"-\" is one argument too many");
    wrong("sheet 1 1 1 -", "BANK2 is missing");
    wrong(
        "sheet 1 1 1 - - --nvmcon",
        "the value of --nvmcon is missing",
    );
    let reason = "the value of --nvmpwp is \"x\", not a hexadecimal word";
    wrong("sheet 1 1 1 - - --nvmpwp x", reason);
    wrong(
        "sheet 1 1 1 - - --nvmkey 0",
        "there is no option \"--nvmkey\"",
    );
    wrong(
        "sheet 1 1 1 - - --nvmcon 0 -",
        "\"-\" is one argument too many",
    );
}

#[test]
fn arguments_of_a_script_that_are_not_understood() {
    wrong("script", "Q is missing");
    wrong("script 1 1", "P is missing");
    wrong("script 1 1 1 - -", "\"-\" is one argument too many");
    wrong("script 1 1 1 -o", "the value of -o is missing");
    wrong("script 1 1 1 -o a -o b", "-o is given twice");
    wrong("script 1 1 1 --out a", "there is no option \"--out\"");
    let both = "--bank1 and --bank2 go together";
    wrong("script 1 1 1 --bank1 -", both);
    wrong("script 1 1 1 --bank2 -", both);
    wrong("script --list", "the value of --list is missing");
    wrong("script --list - -", "\"-\" is one argument too many");
    wrong("script --make - 1 1 1", "\"1\" is one argument too many");
    let both = "--list and --make exclude each other";
    wrong("script --list - --make -", both);
    let both = "--list and --bank1 exclude each other";
    wrong("script --list - --bank1 -", both);
    let both = "--make and --bank2 exclude each other";
    wrong("script --bank2 - --make -", both);
}

#[test]
fn options_of_a_play_that_are_not_understood() {
    wrong("play --sizes 1,1,1", "FILE is missing");
    for sizes in [
        "", "1", "1,1", "1,1,1,1", "1,,1", "1,x,1", "-1,1,1", "1 1 1",
    ] {
        let reason = format!("{sizes:?}, not three numbers with commas between");
        let expected = format!("play: the value of --sizes is {reason}; try yohrundel play --help");
        assert_eq!(run(&["play", "-", "--sizes", sizes]).reason(2), expected);
    }
    let needed = "banks and an image need --sizes";
    wrong("play - --bank1 - --bank2 -", needed);
    wrong("play - --image -", needed);
    let both = "--bank1 and --bank2 go together";
    wrong("play - --sizes 1,1,1 --bank2 -", both);
    wrong("play - --save1", "the value of --save1 is missing");
    wrong("play - --restart --restart", "--restart is given twice");
}

#[test]
fn arguments_of_a_smallest_script_that_are_not_understood() {
    wrong("smallest", "FILE is missing");
    wrong("smallest -", "NUMBER is missing");
    for number in ["", "x", "4294967296", "0x6"] {
        let reason = format!("NUMBER is {number:?}, not a number from 0 to 4294967295");
        wrong(&format!("smallest - {number}"), &reason);
    }
    wrong("smallest - -6", "there is no option \"-6\"");
    wrong("smallest - 6 6", "\"6\" is one argument too many");
    wrong("smallest - 6 -o", "the value of -o is missing");
    wrong("smallest - 6 --restart", "there is no option \"--restart\"");
    wrong("smallest - 6 --image -", "there is no option \"--image\"");
    wrong("smallest - 6 --bank1 - --bank2 -", "banks need --sizes");
    let both = "--bank1 and --bank2 go together";
    wrong("smallest - 6 --sizes 1,1,1 --bank2 -", both);
    let reason = "the value of --sizes is \"1\", not three numbers with commas between";
    wrong("smallest - 6 --sizes 1", reason);
}

#[test]
fn arguments_of_a_row_that_are_not_understood() {
    wrong("row", "SIGNS is missing");
    wrong("row 2", "K is missing");
    wrong("row 2 1 1 1", "P is missing");
    wrong("row 2 1 1 1 1 - 5", "\"5\" is one argument too many");
    wrong(
        "row 2 x 1 1 1",
        "K is \"x\", not a number from 0 to 4294967295",
    );
    wrong("row 2 1 1 1 1 --cut", "the value of --cut is missing");
    wrong("row 2 1 1 1 1 --cut 1 --cut 1", "--cut is given twice");
    wrong("row 2 1 1 1 1 --then", "there is no option \"--then\"");
    let reason = "the value of --cut is \"-1\", not a number from 0 to 4294967295";
    wrong("row 2 1 1 1 1 --cut -1", reason);
    let reason = "the value of --cut is 505, but the row has 504 calls";
    wrong("row 2 1 1 1 1 --cut 505", reason);
}

#[test]
fn arguments_of_a_cut_that_are_not_understood() {
    wrong("cut 1 1 1", "PLACE is missing");
    wrong("cut 1 1 1 0", "KIND is missing");
    let kinds = "power-on, brown-out or other, or 0, 1 or 2";
    wrong("cut 1 1 1 0 3", &format!("KIND is \"3\", not {kinds}"));
    for mask in [
        "",
        "0x",
        "g",
        "+1",
        "100000000",
        "1,2",
        "1,2,3,4,5",
        "1,,2,3",
    ] {
        let reason = format!("MASK is {mask:?}, not one or four hexadecimal words");
        wrong(&format!("cut 1 1 1 0 0 {mask}"), &reason);
    }
    wrong("cut 1 1 1 0 0 0 0", "\"0\" is one argument too many");
    wrong("cut 1 1 1 0 0 --read", "the value of --read is missing");
    wrong("cut 1 1 1 0 0 --read 0 --read 0", "--read is given twice");
    wrong("cut 1 1 1 0 0 --write 0", "there is no option \"--write\"");
    wrong("cut 1 1 1 0 --read 0", "KIND is missing");
    for address in ["", "0x", "x", "-4", "100000000", "1D000000h"] {
        let reason = format!("the value of --read is {address:?}, not a hexadecimal address");
        wrong(&format!("cut 1 1 1 0 0 --read {address}"), &reason);
    }
}

#[test]
fn arguments_of_further_cuts_that_are_not_understood() {
    for front in ["cut 1 1 1 0 0", "cut 1 1 1 0 0 --then 1 1"] {
        wrong(&format!("{front} --then"), "PLACE is missing");
        wrong(&format!("{front} --then 0"), "KIND is missing");
        wrong(
            &format!("{front} --then 0 0 0 0"),
            "\"0\" is one argument too many",
        );
        let reason = "the value of --read is missing";
        wrong(&format!("{front} --read --then 0 0"), reason);
        let missing = "the value of --cut-start-up is missing";
        wrong(&format!("{front} --cut-start-up"), missing);
        wrong(&format!("{front} --cut-start-up --then 0 0"), missing);
        for stores in ["", "x", "-1", "4294967296"] {
            let number = "not a number from 0 to 4294967295";
            let reason = format!("the value of --cut-start-up is {stores:?}, {number}");
            wrong(&format!("{front} --cut-start-up {stores}"), &reason);
        }
    }
    wrong("cut --then 1 1 1 0 0", "Q is missing");
    wrong("cut 1 1 1 --then 0 0", "PLACE is missing");
}

/// Arguments that are declined, with the status 1.
fn declined(arguments: &str, reason: &str) {
    let arguments: Vec<&str> = arguments.split(' ').collect();
    let expected = format!("{}: declined by {reason}", arguments[0]);
    assert_eq!(run(&arguments).reason(1), expected);
}

#[test]
fn declined_arguments() {
    let reason = "13: the place exceeds the total: PLACE is 253, the total 252";
    declined("cut 1 1 1 253 0", reason);
    declined("cut 1 1 1 253 0 --read 1D000001", reason);
    declined("cut 1 1 1 0 0 --then 253 0", reason);
    declined("cut 1 1 1 0 0 --then 252 0 --then 253 0", reason);
}

/// The quads per row are in a list, boot pages 1 to 5, program pages 1 to 128; Q is judged before B and B before P.
#[test]
fn declined_sizes() {
    let quads = "not 1, 2, 4, 8, 16, 32, 64 or 128";
    for (geometry, cause) in [
        ("0 1 1", format!("Q is 0, {quads}")),
        ("3 1 1", format!("Q is 3, {quads}")),
        ("256 0 0", format!("Q is 256, {quads}")),
        ("1 0 1", String::from("B is 0, not 1 to 5")),
        ("1 6 129", String::from("B is 6, not 1 to 5")),
        ("1 1 0", String::from("P is 0, not 1 to 128")),
        ("1 1 129", String::from("P is 129, not 1 to 128")),
    ] {
        let range = "1: the quads per row, boot pages or program pages are out of range";
        let reason = format!("{range}: {cause}");
        let sizes = geometry.replace(' ', ",");
        for arguments in [
            format!("update {geometry}"),
            format!("cut {geometry} 0 0"),
            format!("sheet {geometry} - -"),
            format!("reach {geometry} - -"),
            format!("script {geometry}"),
            format!("row 0 0 {geometry}"),
            format!("play - --sizes {sizes}"),
            format!("smallest - 6 --sizes {sizes}"),
        ] {
            declined(&arguments, &reason);
        }
    }
}

/// A page has 128 bytes here; both program regions adjoin.
#[test]
fn declined_addresses() {
    let windows = "0x1D000000 to 0x1D0000FF, 0x1FC00000 to 0x1FC0007F or 0x1FC20000 to 0x1FC2007F";
    let outside = |number: &str| format!("{number} is not in {windows}");
    let odd = |number: &str| format!("{number} is no multiple of 4");
    for (address, cause) in [
        ("1D000001", odd("0x1D000001")),
        ("0x1fc2007e", odd("0x1FC2007E")),
        ("1cfffffc", outside("0x1CFFFFFC")),
        ("0x1D000100", outside("0x1D000100")),
        ("0", outside("0x00000000")),
        ("FFFFFFFF", outside("0xFFFFFFFF")),
    ] {
        let reason = format!("8: there is no such address or page: ADDRESS {cause}");
        declined(&format!("cut 1 1 1 19 0 --read {address}"), &reason);
        let then = format!("cut 1 1 1 0 0 --then 1 1 --read {address}");
        declined(&then, &reason);
    }
}

/// More signs than a row has are declined before there is memory for them.
#[test]
fn declined_rows() {
    let row = "19: the row, its queue or the places of its banks are out of range";
    for number in ["0", "33", "4294967295"] {
        let reason = format!("{row}: SIGNS is {number}, not 1 to 32");
        declined(&format!("row {number} 1 128 5 128"), &reason);
        declined(&format!("row {number} 0 1 1 1 --cut 9"), &reason);
        let reason = format!("{row}: K is {number}, not 1 to 32");
        declined(&format!("row 2 {number} 1 1 1"), &reason);
    }
}

#[test]
fn images_of_a_wrong_length() {
    for length in [0, 252, 255, 257, 260] {
        let path = file(&format!("image-of-{length}-bytes"), &vec![0; length]);
        let path = path.to_str().expect("a name in UTF-8");
        let reason = "2: a bank, the image, the SRAM or the result has a wrong length";
        let cause = format!("{path:?} has {length} bytes, not the 256 of a bank");
        let reason = format!("{reason}: {cause}");
        declined(&format!("update 1 1 1 {path}"), &reason);
        declined(&format!("script 1 1 1 {path}"), &reason);
        declined(&format!("reach 1 1 1 {path} -"), &reason);
        declined(&format!("row 33 0 1 1 1 {path}"), &reason);
        declined(
            &format!("play /dev/null --sizes 1,1,1 --image {path}"),
            &reason,
        );
    }
}

#[test]
fn files_that_cannot_be_read() {
    for (path, error) in [
        ("/no/such/file", "No such file or directory (os error 2)"),
        ("/", "Is a directory (os error 21)"),
    ] {
        let reason = format!("{path:?} cannot be read: {error}");
        assert_eq!(run(&["play", path]).reason(3), format!("play: {reason}"));
        for command in ["update", "script"] {
            let reason = format!("{command}: {reason}");
            assert_eq!(run(&[command, "1", "1", "1", path]).reason(3), reason);
        }
        let ran = run(&["row", "1", "1", "1", "1", "1", path]);
        assert_eq!(ran.reason(3), format!("row: {reason}"));
        let ran = run(&["smallest", path, "6"]);
        assert_eq!(ran.reason(3), format!("smallest: {reason}"));
        let ran = run(&["reach", "1", "1", "1", path, "-"]);
        assert_eq!(ran.reason(3), format!("reach: {reason}"));
        for option in ["--list", "--make"] {
            let reason = format!("script: {reason}");
            assert_eq!(run(&["script", option, path]).reason(3), reason);
        }
    }
}

#[test]
fn files_that_cannot_be_written() {
    for (path, error) in [
        ("/no/such/file", "No such file or directory (os error 2)"),
        ("/", "Is a directory (os error 21)"),
        ("/dev/full", "No space left on device (os error 28)"),
    ] {
        let reason = format!("{path:?} cannot be written: {error}");
        assert_eq!(
            run(&["script", "1", "1", "1", "-o", path]).reason(3),
            format!("script: {reason}")
        );
        for option in ["--save1", "--save2"] {
            let ran = run(&["play", "/dev/null", option, path]);
            assert_eq!(ran.reason(3), format!("play: {reason}"));
        }
        for line in ["update 1 1 1", "cut 1 1 1 0 0", "row 1 1 1 1 1"] {
            let (command, _) = line.split_once(' ').expect("a command");
            let ran = run(&format!("{line} --svg {path}")
                .split(' ')
                .collect::<Vec<_>>());
            assert_eq!(ran.reason(3), format!("{command}: {reason}"));
        }
    }
}
