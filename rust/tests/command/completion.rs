//! `yohrundel completion`: what its script completes in bash.

use std::process::Command;

use crate::arguments::wrong;
use crate::help::{options, COMMANDS};
use crate::run::{Ran, PROGRAM};

/// Runs a script of bash over the loaded completions.
fn bash(script: &str, arguments: &[&str]) -> String {
    let script = format!("source <(\"$0\" completion bash) && {script}");
    let mut command = Command::new("bash");
    command
        .args(["--norc", "-c", &script, PROGRAM])
        .args(arguments);
    Ran::new(command.output().expect("bash")).printed()
}

/// The words that complete the last word of a line; none where bash completes file names itself.
fn completed(line: &str) -> Vec<String> {
    let script = "COMP_WORDS=(\"$@\") COMP_CWORD=$(($# - 1)); _yohrundel; \
                  printf '%s\\n' \"${COMPREPLY[@]}\"";
    let words: Vec<&str> = line.split(' ').collect();
    let printed = bash(script, &words);
    printed.split_whitespace().map(String::from).collect()
}

#[test]
fn names_of_commands() {
    let global = ["--help", "-h", "--version", "-V"];
    assert_eq!(completed("yohrundel "), [&COMMANDS[..], &global].concat());
    assert_eq!(completed("yohrundel p"), ["play", "places", "plan"]);
    assert_eq!(completed("yohrundel re"), ["reach"]);
    assert_eq!(completed("yohrundel --v"), ["--version"]);
    assert_eq!(completed("yohrundel x"), [""; 0]);
    assert_eq!(
        completed("yohrundel help s"),
        ["script", "smallest", "start", "sweep", "sheet"]
    );
}

#[test]
fn options_of_a_command() {
    let all = ["--sizes", "--bank1", "--bank2", "--image", "--restart"];
    let more = ["--save1", "--save2", "--help", "-h"];
    assert_eq!(completed("yohrundel play -"), [&all[..], &more].concat());
    assert_eq!(
        completed("yohrundel play x --sizes 1,1,1 --s"),
        ["--sizes", "--save1", "--save2"]
    );
    assert_eq!(
        completed("yohrundel cut 1 1 1 0 0 --then 1 0 --c"),
        ["--cut-start-up"]
    );
    assert_eq!(completed("yohrundel play -- -"), [""; 0]);
}

/// The options of each command are those of its help.
#[test]
fn options_of_each_command() {
    for command in COMMANDS {
        let names: Vec<String> = options(command)
            .iter()
            .flat_map(|option| {
                option
                    .split([' ', ','])
                    .map(String::from)
                    .collect::<Vec<_>>()
            })
            .filter(|word| word.starts_with('-'))
            .collect();
        assert_eq!(completed(&format!("yohrundel {command} -")), names);
    }
}

#[test]
fn words_of_a_command() {
    assert_eq!(completed("yohrundel lanes "), ["out", "back"]);
    assert_eq!(completed("yohrundel lanes b"), ["back"]);
    assert_eq!(completed("yohrundel completion "), ["bash"]);
    assert_eq!(completed("yohrundel lanes out "), [""; 0]);
}

/// Where a file is wanted there are no words, for which bash has file names; elsewhere a value has none.
#[test]
fn names_of_files() {
    let registered = bash("complete -p yohrundel", &[]);
    assert_eq!(registered, "complete -o default -F _yohrundel yohrundel\n");
    for line in [
        "yohrundel play ",
        "yohrundel play --bank1 ",
        "yohrundel play --bank1 -",
        "yohrundel play --bank1 =",
        "yohrundel play --bank1 = -",
        "yohrundel script 1 1 1 -o -",
    ] {
        assert_eq!(completed(line), [""; 0], "{line}");
        assert!(keeps_files(line), "{line}");
    }
    for line in [
        "yohrundel play --sizes ",
        "yohrundel play --sizes = ",
        "yohrundel play --sizes =",
        "yohrundel cut 1 1 1 0 0 --read 1D",
    ] {
        assert_eq!(completed(line), [""; 0], "{line}");
        assert!(!keeps_files(line), "{line}");
    }
}

/// Whether file names are left to bash.
fn keeps_files(line: &str) -> bool {
    let script = "compopt() { echo \"$@\"; }; COMP_WORDS=(\"$@\") COMP_CWORD=$(($# - 1)); \
                  _yohrundel";
    let words: Vec<&str> = line.split(' ').collect();
    match bash(script, &words).as_str() {
        "" => true,
        "+o default\n" => false,
        other => panic!("{other}"),
    }
}

#[test]
fn shells_that_are_not_understood() {
    wrong("completion", "SHELL is missing");
    wrong("completion zsh", "SHELL is \"zsh\", not bash");
    wrong("completion bash bash", "\"bash\" is one argument too many");
}
