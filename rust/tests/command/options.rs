//! Where options stand among the arguments, how their values are written, and options that are not understood.

use std::ffi::OsStr;
use std::fs;
use std::os::unix::ffi::OsStrExt;
use std::process::Command;

use model::script::play;

use crate::arguments::wrong;
use crate::help::{options, COMMANDS};
use crate::outside::Sign;
use crate::play::SCRIPT;
use crate::run::{file, run, Ran, PROGRAM};
use crate::scripts::{named, written};

/// A run with the arguments in a text.
fn line(text: &str) -> Ran {
    run(&text.split(' ').collect::<Vec<_>>())
}

/// A run in the folder of the tests' files.
fn inside(text: &str) -> Ran {
    let mut command = Command::new(PROGRAM);
    command
        .args(text.split(' '))
        .current_dir(env!("CARGO_TARGET_TMPDIR"));
    Ran::new(command.output().expect("the command is run"))
}

/// Each line prints the same, and without the options it prints something else.
#[test]
fn options_before_and_after_the_other_arguments() {
    let path = named("options-script", SCRIPT);
    let [one, two] = ["one", "two"].map(|name| named(&format!("options-{name}"), &[0; 256]));
    for [without, first, second] in [
        [
            "row 2 1 1 1 1",
            "row --cut 7 2 1 1 1 1",
            "row 2 1 1 --cut=7 1 1",
        ],
        ["plan 0 1 5:1", "plan --json 0 1 5:1", "plan 0 1 5:1 --json"],
        [
            "play SCRIPT",
            "play --restart --sizes 1,2,1 SCRIPT",
            "play SCRIPT --sizes=1,2,1 --restart",
        ],
        [
            "sheet 1 1 1 ONE TWO",
            "sheet --nvmpwp 80000001 1 1 1 ONE --nvmbwp=9FC0 TWO",
            "sheet 1 1 1 ONE TWO --nvmbwp 9FC0 --nvmpwp 80000001",
        ],
    ] {
        let printed = |text: &str| {
            let text = text.replace("SCRIPT", &path);
            let text = text.replace("ONE", &one).replace("TWO", &two);
            line(&text).printed()
        };
        assert_eq!(printed(first), printed(second), "{first}");
        assert_ne!(printed(first), printed(without), "{first}");
    }
}

/// After -- a file's name may begin with a hyphen, and no argument is an option.
#[test]
fn end_of_the_options() {
    for name in ["-script", "--help", "--", "-o=x"] {
        file(name, SCRIPT);
        assert_eq!(inside(&format!("play -- {name}")).printed(), play(SCRIPT));
    }
    let expected = Sign::bench().play(&model::script::records(SCRIPT).expect("a script"));
    assert_eq!(
        inside("play --save1 options-bank -- -script").printed(),
        expected
    );
    let reason = "play: there is no option \"-script\"; try yohrundel play --help";
    assert_eq!(inside("play -script").reason(2), reason);
    let reason = "play: FILE is missing; try yohrundel play --help";
    assert_eq!(inside("play --").reason(2), reason);
    wrong(
        "update 1 1 1 - -- --help",
        "\"--help\" is one argument too many",
    );
    wrong(
        "update -- -1 1 1",
        "Q is \"-1\", not a number from 0 to 4294967295",
    );
    assert_eq!(
        line("plan -- 0 1 5:1").printed(),
        line("plan 0 1 5:1").printed()
    );
    assert_eq!(
        line("plan 0 1 5:1 --").printed(),
        line("plan 0 1 5:1").printed()
    );
}

/// -o FILE, -oFILE, -o=FILE, and a name with an equals sign in it.
#[test]
fn values_behind_their_names() {
    let expected = Sign::fresh([1, 1, 1], None)
        .script()
        .expect("it is accepted");
    for (arguments, name) in [
        ("-o options-a", "options-a"),
        ("-ooptions-b", "options-b"),
        ("-o=options-c", "options-c"),
        ("-ooptions=d", "options=d"),
        ("-o=options=e", "options=e"),
        ("-o -options-f", "-options-f"),
    ] {
        let path = file(name, b"before");
        inside(&format!("script 1 1 1 {arguments}")).printed();
        assert!(fs::read(path).expect("a script") == expected, "{name}");
    }
    assert!(written(line("script 1 1 1 -o-")) == expected);
    let path = named("options=image", &[7; 256]);
    let image = Sign::fresh([1, 1, 1], Some(vec![0x0707_0707; 64]));
    let banks = [&image.banks[0], &image.banks[1]].map(|words| crate::run::bytes(words));
    let [one, two] = [0, 1].map(|bank| named(&format!("options-bank={bank}"), &banks[bank]));
    let ran = line(&format!("script 1 1 1 --bank1={one} {path} --bank2={two}"));
    assert!(written(ran) == image.script().expect("it is accepted"));
}

#[test]
fn values_that_are_no_text() {
    let value = OsStr::from_bytes(b"--list=/no/\xFF=");
    let ran = run(&[OsStr::new("script"), value]);
    let reason = "\"/no/\\xFF=\" cannot be read: No such file or directory (os error 2)";
    assert_eq!(ran.reason(3), format!("script: {reason}"));
    let option = OsStr::from_bytes(b"--\xFF=1");
    let reason = "script: there is no option \"--\\xFF\"; try yohrundel script --help";
    assert_eq!(run(&[OsStr::new("script"), option]).reason(2), reason);
}

/// An option of the command, or the end of the options, is no value; what only looks like an option is one.
#[test]
fn values_that_are_missing() {
    wrong("script 1 1 1 -o", "the value of -o is missing");
    wrong("script 1 1 1 -o --bank1 x", "the value of -o is missing");
    wrong("script -o -- 1 1 1", "the value of -o is missing");
    wrong(
        "play - --sizes --restart",
        "the value of --sizes is missing",
    );
    wrong(
        "cut 1 1 1 0 0 --read --then 1 1",
        "the value of --read is missing",
    );
    let number = "a number from 0 to 4294967295";
    wrong(
        "row 2 1 1 1 1 --cut --now",
        &format!("the value of --cut is \"--now\", not {number}"),
    );
    wrong(
        "row 2 1 1 1 1 --cut=",
        &format!("the value of --cut is \"\", not {number}"),
    );
    wrong(
        "row 2 1 1 1 1 --cut=--json",
        &format!("the value of --cut is \"--json\", not {number}"),
    );
}

#[test]
fn options_without_a_value_that_get_one() {
    wrong("play - --restart=1", "--restart takes no value");
    wrong("plan 0 1 0:1 --json=", "--json takes no value");
    wrong("cut 1 1 1 0 0 --then=1 1", "--then takes no value");
    wrong("update 1 1 1 --help=all", "--help takes no value");
    wrong(
        "update 1 1 1 -help",
        "there is no option \"-help\", the nearest is --help",
    );
    let reason = "--version takes no value; try yohrundel --help";
    assert_eq!(run(&["--version=1"]).reason(2), reason);
}

/// The nearest name is said where it is near.
#[test]
fn unknown_options() {
    for (arguments, given, near) in [
        ("play - --siezs 1,1,1", "--siezs", "--sizes"),
        ("play - --size=1,1,1", "--size", "--sizes"),
        ("play - --SIZES 1,1,1", "--SIZES", "--sizes"),
        ("play - --save3 x", "--save3", "--save1"),
        ("play - --rest", "--rest", "--restart"),
        (
            "cut 1 1 1 0 0 --cut-startup 1",
            "--cut-startup",
            "--cut-start-up",
        ),
        ("cut 1 1 1 0 0 --than 1 1", "--than", "--then"),
        ("cut 1 1 1 0 0 --then 1 1 --red 0", "--red", "--read"),
        ("script 1 1 1 -O x", "-O", "-o"),
        ("plan 0 1 0:1 --jsno", "--jsno", "--json"),
    ] {
        let reason = format!("there is no option {given:?}, the nearest is {near}");
        wrong(arguments, &reason);
    }
    for (arguments, given) in [
        ("play - --fast", "--fast"),
        ("play - -x", "-x"),
        ("play - --sizes 1,1,1 --sheets", "--sheets"),
        ("update 1 1 1 --sizes 1,1,1", "--sizes"),
    ] {
        wrong(arguments, &format!("there is no option {given:?}"));
    }
    for (given, rest) in [("--hlep", ", the nearest is --help"), ("--json", "")] {
        let reason = format!("there is no option {given:?}{rest}; try yohrundel --help");
        assert_eq!(run(&[given, "plan"]).reason(2), reason);
    }
    let reason = "COMMAND is missing; try yohrundel --help";
    assert_eq!(run(&["--"]).reason(2), reason);
}

/// Every option of every command, but for those that its help lets be given several times.
#[test]
fn options_given_twice() {
    let mut refused = Vec::new();
    for command in COMMANDS {
        for option in options(command) {
            let mut words = option.split(' ');
            let name = words.next().expect("its name");
            if ["--then", "--cut-start-up", "--register", "--help,"].contains(&name) {
                continue;
            }
            let given = match words.next() {
                Some(_) => format!("{name} 0"),
                None => String::from(name),
            };
            wrong(
                &format!("{command} {given} x {given}"),
                &format!("{name} is given twice"),
            );
            refused.push(name.to_string());
        }
    }
    for name in ["--sizes", "--restart", "-o", "--read", "--json", "--nvmbwp"] {
        assert!(refused.iter().any(|of| of == name), "{name}");
    }
}

/// An option of a part belongs to that part, and -- ends the options of all.
#[test]
fn parts_of_a_cut() {
    let printed = |text: &str| line(text).printed();
    let twice = "cut 1 1 1 19 0 --read 1D000000 --then 20 0 --read=1D000000";
    assert_eq!(printed(twice).matches("the CPU reads").count(), 2);
    let once = "cut 1 1 1 19 0 --then --read 1D000000 -- 20 0";
    let text = printed(once);
    assert!(text.contains("At place 19 the supply fails"));
    assert!(text.contains("At place 20 the CPU reads"));
    wrong(
        "cut 1 1 1 0 0 0 -- --then 1 1",
        "\"--then\" is one argument too many",
    );
    let reason = "MASK is \"--then\", not one or four hexadecimal words";
    wrong("cut 1 1 1 0 0 -- --then 1 1", reason);
}
