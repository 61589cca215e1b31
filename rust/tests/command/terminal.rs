//! Outputs that are terminals.

use std::process::{Command, Stdio};

use model::script::{play, records};

use crate::outside::{Sign, LEGEND};
use crate::play::{sequence_script, SCRIPT};
use crate::rows::expected;
use crate::run::{bytes, file, Ran, PROGRAM};

/// A run on a terminal, which the program `script` makes. None where there is no such program.
fn on_a_terminal(command: &str) -> Option<Ran> {
    let mut terminal = Command::new("script");
    terminal.args(["--quiet", "--return", "--command", command, "/dev/null"]);
    terminal.stdin(Stdio::piped()).stdout(Stdio::piped());
    let mut child = terminal.stderr(Stdio::piped()).spawn().ok()?;
    // A standard input that ends is passed on to the terminal, which would show it.
    let input = child.stdin.take();
    let ran = Ran::new(child.wait_with_output().expect("the terminal ends"));
    drop(input);
    Some(ran)
}

fn there_is_a_terminal() -> bool {
    let there_is = on_a_terminal("true").is_some_and(|ran| ran.status == Some(0));
    if !there_is {
        eprintln!("not tested: `script` makes no terminal here");
    }
    there_is
}

/// A script's bytes are not for a terminal, whatever makes them; its text is.
#[test]
fn no_bytes_for_a_terminal() {
    if !there_is_a_terminal() {
        return;
    }
    for arguments in ["1 1 1", "1 1 1 -o -", "--make /dev/null"] {
        let ran = on_a_terminal(&format!("{PROGRAM} script {arguments}")).expect("a terminal");
        let reason = "a script is no text for a terminal: give -o FILE, or a pipe";
        let line = format!("yohrundel: script: {reason}; try yohrundel script --help\r\n");
        assert_eq!((ran.status, ran.out), (Some(2), line.into_bytes()));
    }
    let path = file("terminal-smallest", SCRIPT);
    let smallest = format!("{PROGRAM} smallest {} 6", path.display());
    let ran = on_a_terminal(&format!("{smallest} -o -")).expect("a terminal");
    assert_eq!(ran.status, Some(2));
    let printed = on_a_terminal(&smallest).expect("a terminal").printed();
    assert!(printed.ends_with("\r\nstep  # record 8\r\n"));
    let path = file("terminal-list", &SCRIPT[..8]);
    let list = format!("{PROGRAM} script --list {}", path.display());
    let printed = on_a_terminal(&list).expect("a terminal").printed();
    assert_eq!(printed, "store NVMADDR plain 0x1D000080\r\n");
}

/// Nor are a bank's bytes.
#[test]
fn no_bank_for_a_terminal() {
    if !there_is_a_terminal() {
        return;
    }
    for (command, option) in [
        ("play /dev/null", "--save1"),
        ("update 1 1 1", "--save1"),
        ("cut 1 1 1 0 0", "--save2"),
    ] {
        let ran = on_a_terminal(&format!("{PROGRAM} {command} {option} -")).expect("a terminal");
        let name = command.split(' ').next().unwrap_or("");
        let reason = "a bank is no text for a terminal: give the name of a file, or a pipe";
        let line = format!("yohrundel: {name}: {reason}; try yohrundel {name} --help\r\n");
        assert_eq!((ran.status, ran.out), (Some(2), line.into_bytes()));
    }
}

/// Both banks after the play follow its lines.
#[test]
fn banks_after_a_play() {
    if !there_is_a_terminal() {
        return;
    }
    for (name, script) in [
        ("example", SCRIPT.to_vec()),
        ("sequence", sequence_script(2)),
    ] {
        let path = file(&format!("terminal-{name}"), &script);
        let ran = on_a_terminal(&format!("{PROGRAM} play {}", path.display()));
        let printed = ran.expect("a terminal").printed().replace("\r\n", "\n");
        let mut sign = Sign::bench();
        sign.play(&records(&script).expect("a script"));
        let (lines, picture) = (play(&script), sign.picture());
        assert_eq!(printed, format!("{lines}\n{picture}\n{LEGEND}"));
    }
}

/// The rows of the banks after a play, without the marks of protected pages.
fn banks_of_a_play(script: &[u8], options: &str) -> Vec<String> {
    let path = file("terminal-banks", script);
    let ran = on_a_terminal(&format!("{PROGRAM} play {} {options}", path.display()));
    let printed = ran.expect("a terminal").printed();
    let rows = printed.lines().filter(|line| line.starts_with("bank "));
    let rows = rows.filter(|line| !line.ends_with("runs:"));
    rows.map(|row| row.trim_end().into()).collect()
}

/// A page is new when no quad of it is blank, where no image is given, and when it is as in the image, where one is.
#[test]
fn new_pages_after_a_play() {
    if !there_is_a_terminal() {
        return;
    }
    // The last program page is all ones. The update has 12 + 8 x 3 + 112 x 3 actions.
    let mut image: Vec<u32> = (0..96).collect();
    image[64..].fill(!0);
    let script = Sign::fresh([1, 1, 2], Some(image.clone())).script();
    let script = script.expect("it is accepted");
    let image = file("terminal-image", &bytes(&image));
    let given = format!("--sizes 1,1,2 --image {}", image.display());
    let whole = "bank 1* o     oo";
    for (records, options, second) in [
        (372, "--sizes 1,1,2", "bank 2  n     n."),
        (372, &given, "bank 2  n     nn"),
        // Quads of the program pages are programmed by the records from 60 on, 13 for each.
        (60 + 13 * 7, "--sizes 1,1,2", "bank 2  .     ~."),
        (60 + 13 * 8, "--sizes 1,1,2", "bank 2  .     n."),
        (60 + 13 * 7, &given, "bank 2  .     ~."),
        (60 + 13 * 8, &given, "bank 2  .     n."),
    ] {
        let rows = banks_of_a_play(&script[..8 * records], options);
        assert_eq!(rows, [whole, second], "{records} {options}");
    }
    let script = Sign::fresh([1, 1, 1], None).script();
    let rows = banks_of_a_play(&script.expect("it is accepted"), "");
    assert_eq!(rows, ["bank 1* o     .", "bank 2  n     n"]);
}

/// The lines of a row are as wide as COLUMNS says, where that can be.
#[test]
fn width_of_a_row() {
    if !there_is_a_terminal() {
        return;
    }
    for (columns, width) in [("40", 40), ("133", 133), ("19", 72), ("x", 72), ("", 72)] {
        let row = format!("COLUMNS={columns} {PROGRAM} row 3 2 1 1 1");
        let printed = on_a_terminal(&row).expect("a terminal").printed();
        let expected = expected(Sign::fresh([1, 1, 1], None), [3, 2], None, width);
        assert_eq!(printed, expected.replace('\n', "\r\n"), "{columns}");
    }
}
