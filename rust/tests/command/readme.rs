//! README's examples of the command print what README says.

use std::path::{Path, PathBuf};
use std::process::Command;
use std::{env, fs};

use crate::run::{Ran, PROGRAM};

/// The commands of README's indented blocks that begin with a prompt, each with the lines that follow it.
fn examples(text: &str) -> Vec<(String, String)> {
    let mut examples: Vec<(String, String)> = Vec::new();
    let mut inside = false;
    for line in text.lines() {
        let indented = line.strip_prefix("    ");
        if let Some(command) = indented.and_then(|line| line.strip_prefix("$ ")) {
            examples.push((command.into(), String::new()));
            inside = true;
        } else if indented.is_none() && !line.is_empty() {
            inside = false;
        } else if let (true, Some((_, output))) = (inside, examples.last_mut()) {
            *output += indented.unwrap_or("");
            *output += "\n";
        }
    }
    examples
}

/// The file of the repository's crates that the examples read.
const READ: &str = "crates/play/stdin";

/// A folder for the files that the examples write, with a copy of the one that they read: `rt ci` refuses a link.
fn scratch() -> PathBuf {
    let folder = Path::new(env!("CARGO_TARGET_TMPDIR")).join("readme");
    let copy = folder.join(READ);
    let _ = fs::remove_dir_all(&folder);
    fs::create_dir_all(copy.parent().expect("a folder")).expect("a folder");
    let file = Path::new(concat!(env!("CARGO_MANIFEST_DIR"), "/..")).join(READ);
    fs::copy(file, copy).expect("a copy");
    folder
}

#[test]
fn examples_print_what_they_say() {
    let folder = Path::new(PROGRAM).parent().expect("a folder").display();
    let path = format!("{folder}:{}", env::var("PATH").expect("a path"));
    let scratch = scratch();
    let examples = examples(include_str!("../../../README.md"));
    assert!(examples.len() > 2);
    for (command, output) in examples {
        let mut shell = Command::new("sh");
        shell.args(["-c", &command]).env("PATH", &path);
        shell.current_dir(&scratch);
        let printed = Ran::new(shell.output().expect("a shell")).printed();
        assert_eq!(printed.trim_end(), output.trim_end(), "{command}");
    }
}
