//! Help and version.

use crate::run::run;

pub const COMMANDS: [&str; 16] = [
    "play",
    "script",
    "smallest",
    "start",
    "update",
    "cut",
    "places",
    "sweep",
    "row",
    "reach",
    "plan",
    "lanes",
    "sheet",
    "why",
    "help",
    "completion",
];

pub fn help_of(command: &str) -> String {
    run(&[command, "--help"]).printed()
}

/// What the lines under a heading begin with, up to a blank line; the lines that go on are left out.
pub fn section<'a>(help: &'a str, heading: &str) -> Vec<&'a str> {
    let lines = help.lines().skip_while(|line| *line != heading).skip(1);
    let lines = lines.take_while(|line| !line.is_empty());
    let rows = lines.filter_map(|line| line.strip_prefix("  "));
    let rows = rows.filter(|row| !row.starts_with(' '));
    rows.filter_map(|row| row.split("  ").next()).collect()
}

/// The options of a command as its help has them, with their values.
pub fn options(command: &str) -> Vec<String> {
    let help = help_of(command);
    let rows = section(&help, "Options:").into_iter();
    rows.map(String::from).collect()
}

#[test]
fn help_names_every_command() {
    let help = run(&["--help"]).printed();
    let rows = section(&help, "Commands:").into_iter();
    let named: Vec<&str> = rows.filter_map(|row| row.split(' ').next()).collect();
    assert_eq!(named, COMMANDS);
    assert_eq!(run(&["-h"]).printed(), help);
    assert_eq!(run(&["help"]).printed(), help);
    assert_eq!(section(&help, "Options:"), ["--help, -h", "--version, -V"]);
}

#[test]
fn help_of_each_command() {
    let all = run(&["--help"]).printed();
    for command in COMMANDS {
        let help = help_of(command);
        let first = help.lines().next().unwrap_or("");
        let usage = first.strip_prefix("usage: yohrundel ").expect("its usage");
        assert!(usage.starts_with(&format!("{command} ")));
        assert!(all.contains(&format!("\n  {usage}  ")), "{usage}");
        assert_eq!(run(&[command, "x", "-h"]).printed(), help);
        assert_eq!(run(&["help", command]).printed(), help);
    }
}

/// The usage line, the details and the options, each with words beside or below it.
#[test]
fn parts_of_each_help() {
    for command in COMMANDS {
        let help = help_of(command);
        let parts: Vec<&str> = help.split("\n\n").collect();
        assert!(
            parts.len() >= 3 && !parts[1].starts_with("Options:"),
            "{help}"
        );
        let options = options(command);
        assert_eq!(options.last().map(String::as_str), Some("--help, -h"));
        let usage = parts[0];
        assert_eq!(usage.ends_with(" [OPTION..]"), options.len() > 1, "{usage}");
        for option in options {
            let beside = help
                .split_once(&format!("\n  {option}"))
                .expect("its row")
                .1;
            let words = beside.split_whitespace().next().unwrap_or("-");
            assert!(!words.starts_with('-'), "{option} of {command}");
        }
    }
}

#[test]
fn help_has_at_most_80_columns() {
    let of_each = COMMANDS.map(help_of);
    for help in of_each.into_iter().chain([run(&["--help"]).printed()]) {
        assert!(help.lines().all(|line| line.len() <= 80), "{help}");
        assert!(help.lines().all(|line| line == line.trim_end()), "{help}");
    }
}

/// The statuses that the tests of the other files ask for.
#[test]
fn statuses() {
    let help = run(&["--help"]).printed();
    let statuses = section(&help, "Exit status:");
    assert_eq!(statuses, ["0", "1", "2", "3", "141"]);
}

#[test]
fn help_of_no_command() {
    let reason = "help: there is no command \"sheets\", the nearest is sheet";
    let expected = format!("{reason}; try yohrundel help --help");
    assert_eq!(run(&["help", "sheets"]).reason(2), expected);
    let reason = "help: \"plan\" is one argument too many; try yohrundel help --help";
    assert_eq!(run(&["help", "play", "plan"]).reason(2), reason);
}

#[test]
fn version() {
    let (version, commit) = (env!("CARGO_PKG_VERSION"), env!("YOHRUNDEL_COMMIT"));
    let expected = match commit {
        "" => format!("yohrundel {version}\n"),
        _ => format!("yohrundel {version} ({commit})\n"),
    };
    assert_eq!(run(&["--version"]).printed(), expected);
    assert_eq!(run(&["-V"]).printed(), expected);
}
