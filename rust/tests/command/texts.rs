//! `yohrundel script --list` and `--make`: scripts as text, and back.

use std::fs;
use std::path::Path;

use model::generate::{record_edges, refused_scripts, script};
use model::script::{records, Record};

use crate::causes::malformed;
use crate::run::{finish, run, spawn, Ran};
use crate::scripts::{named, written};

pub const REGISTERS: [&str; 11] = [
    "NVMCON",
    "NVMKEY",
    "NVMADDR",
    "NVMDATA0",
    "NVMDATA1",
    "NVMDATA2",
    "NVMDATA3",
    "NVMSRCADDR",
    "NVMPWP",
    "NVMBWP",
    "NVMCON2",
];

pub const FORMS: [&str; 4] = ["plain", "clear", "set", "invert"];

const KINDS: [&str; 3] = ["power-on", "brown-out", "other"];

fn listed(script: &[u8]) -> Ran {
    finish(spawn(&["script", "--list", "-"]), script)
}

fn made(text: &[u8]) -> Ran {
    finish(spawn(&["script", "--make", "-"]), text)
}

/// The text of records as the model reads them.
pub fn text(records: &[Record]) -> String {
    let line = |record: &Record| match *record {
        Record::Store {
            register,
            form,
            value,
        } => {
            let (register, form) = (REGISTERS[register as usize], FORMS[form as usize]);
            format!("store {register} {form} 0x{value:08X}\n")
        }
        Record::Step => String::from("step\n"),
        Record::Reset { kind } => format!("reset {}\n", KINDS[kind as usize]),
    };
    records.iter().map(line).collect()
}

/// A script's text, and its way back; a file that is no script is declined.
fn check(script: &[u8]) {
    match records(script) {
        Ok(records) => {
            let expected = text(&records);
            assert_eq!(listed(script).printed(), expected);
            assert!(written(made(expected.as_bytes())) == script, "{expected}");
        }
        Err(_) => {
            let reason = format!("script: declined by {}", malformed(script));
            assert_eq!(listed(script).reason(1), reason);
        }
    }
}

/// Every kind, register, form and reset kind, with values that have each byte.
#[test]
fn every_record_there_and_back() {
    let mut script = Vec::new();
    for register in 0..11 {
        for form in 0..4 {
            for value in [0, 1, 0xFF, 0x1234_5678, 0x8000_0000, 0xFFFF_FFFF] {
                let store = Record::Store {
                    register,
                    form,
                    value,
                };
                script.extend(store.bytes());
            }
        }
    }
    script.extend(Record::Step.bytes());
    for kind in 0..3 {
        script.extend(Record::Reset { kind }.bytes());
    }
    check(&script);
}

#[test]
fn scripts_there_and_back() {
    check(b"");
    for seed in 0..60 {
        check(&script(seed, false));
    }
    let edges = record_edges();
    for script in edges.iter().step_by(3) {
        check(script);
    }
    let folder = Path::new(env!("CARGO_MANIFEST_DIR")).join("../model/vectors/scripts");
    for entry in fs::read_dir(folder).expect("the scripts") {
        let path = entry.expect("a script").path();
        if path.extension().is_some_and(|end| end == "bin") {
            check(&fs::read(path).expect("a script"));
        }
    }
}

/// Decline 14 names the first record that is none.
#[test]
fn no_scripts() {
    let refused = refused_scripts();
    for script in refused.iter().step_by(5) {
        check(script);
    }
    let step = Record::Step.bytes();
    let script = [&step[..], &step, &[1, 0, 0, 0, 0, 0, 0, 1], &step].concat();
    let reason = "script: declined by 14: the script is malformed";
    let unused = "record 2 has 0x01 in its unused byte 7, not 0";
    assert_eq!(listed(&script).reason(1), format!("{reason}: {unused}"));
    let length = "9 bytes are no multiple of 8";
    let expected = format!("{reason}: {length}");
    assert_eq!(listed(&script[..9]).reason(1), expected);
}

/// The largest script is printed and made again, in files.
#[test]
fn largest_script_there_and_back() {
    let [script, text, again] =
        ["bin", "txt", "again"].map(|end| named(&format!("largest.{end}"), b""));
    run(&["script", "128", "5", "128", "-o", &script]).printed();
    let said = "The script has 1907764 records in 15262112 bytes.\n";
    assert_eq!(
        run(&["script", "--list", &script, "-o", &text]).printed(),
        said
    );
    assert_eq!(
        run(&["script", "--make", &text, "-o", &again]).printed(),
        said
    );
    let [script, again] = [&script, &again].map(|path| fs::read(path).expect("a script"));
    assert!(script == again && script.len() == 15_262_112);
}

/// How many records a text has.
#[test]
fn lengths_that_are_said() {
    let path = named("lengths.bin", b"");
    for (text, said) in [
        (&b""[..], "The script has 0 records in 0 bytes.\n"),
        (b"step", "The script has 1 record in 8 bytes.\n"),
        (b"step\nstep", "The script has 2 records in 16 bytes.\n"),
    ] {
        let made = finish(spawn(&["script", "--make", "-", "-o", &path]), text);
        assert_eq!(made.printed(), said);
    }
}

/// Comments, blank lines, blanks, numbers with and without 0x, kinds by number, and no line feed at the end.
#[test]
fn texts_that_are_made() {
    let text = "# frees the upper boot alias\n\n  \t\n\
                store NVMKEY plain 0\n\
                \tstore  NVMKEY\tplain aa996655   # the second key\r\n\
                store NVMKEY plain 0x556699AA#\n\
                store NVMBWP clear 0x1f\n#step\n\
                reset 1\nreset other\nstep";
    let records = [
        store(1, 0, 0),
        store(1, 0, 0xAA99_6655),
        store(1, 0, 0x5566_99AA),
        store(9, 1, 0x1F),
        Record::Reset { kind: 1 },
        Record::Reset { kind: 2 },
        Record::Step,
    ];
    let expected: Vec<u8> = records.iter().flat_map(Record::bytes).collect();
    assert_eq!(written(made(text.as_bytes())), expected);
    for nothing in [&b""[..], b"\n", b"#", b"# \xFF\n\n"] {
        assert_eq!(written(made(nothing)), b"");
    }
    assert_eq!(written(made(b"step # \xFF\n")), Record::Step.bytes());
}

fn store(register: u8, form: u8, value: u32) -> Record {
    Record::Store {
        register,
        form,
        value,
    }
}

/// A line that is no record, and why.
const WRONG: [(&str, &str); 16] = [
    ("load NVMCON", "\"load\" is not store, step or reset"),
    ("Step", "\"Step\" is not store, step or reset"),
    ("store", "the register is missing"),
    ("store # NVMCON", "the register is missing"),
    ("store NVMCON", "the form is missing"),
    ("store NVMCON set", "the value is missing"),
    ("store NVMCON 0x4000", "the form is \"0x4000\", not FORMS"),
    ("store NVMCON sets 1", "the form is \"sets\", not FORMS"),
    ("store NVMCON set 1g", "the value is \"1g\", not VALUES"),
    ("store NVMCON set -1", "the value is \"-1\", not VALUES"),
    ("store NVMCON set 1 2", "\"2\" is one word too many"),
    ("step 1", "\"1\" is one word too many"),
    ("reset", "the kind is missing"),
    ("reset 3", "the kind is \"3\", not KINDS"),
    ("reset power on", "the kind is \"power\", not KINDS"),
    ("reset other 0", "\"0\" is one word too many"),
];

/// The reason names the line and what is wrong in it.
fn wrong(text: &[u8], line: u32, reason: &str) {
    let reason = reason
        .replace("FORMS", "plain, clear, set or invert")
        .replace("VALUES", "a hexadecimal word")
        .replace("KINDS", "power-on, brown-out or other, or 0, 1 or 2");
    let expected = format!("script: line {line} of \"-\": {reason}; try yohrundel script --help");
    assert_eq!(made(text).reason(2), expected);
}

#[test]
fn texts_that_are_not_understood() {
    for (line, reason) in WRONG {
        let text = format!("step\n# a comment\n{line}\nno record either\n");
        wrong(text.as_bytes(), 3, reason);
    }
    wrong(b"\xFF", 1, "\"\u{FFFD}\" is not store, step or reset");
    for register in ["NVMDATA4", "0", "nvmcon", "NVMDATA"] {
        let names = "NVMCON, NVMKEY, NVMADDR, NVMDATA0 to 3, NVMSRCADDR, NVMPWP, NVMBWP or NVMCON2";
        let reason = format!("the register is {register:?}, not {names}");
        wrong(format!("store {register} plain 0").as_bytes(), 1, &reason);
    }
    let reason = "the value is \"100000000\", not VALUES";
    wrong(b"store NVMCON set 100000000", 1, reason);
}

/// A text that is not understood writes no file, and the reason names the file.
#[test]
fn no_file_of_a_text_that_is_not_understood() {
    let text = named("wrong-text", b"step\nstop\n");
    let path = named("wrong-script", b"kept");
    let reason = format!("line 2 of {text:?}: \"stop\" is not store, step or reset");
    let expected = format!("script: {reason}; try yohrundel script --help");
    assert_eq!(
        run(&["script", "--make", &text, "-o", &path]).reason(2),
        expected
    );
    assert_eq!(fs::read(&path).expect("a file"), b"kept");
}
