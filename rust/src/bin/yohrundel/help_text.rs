//! The texts of the help, made from the tables of the commands.

use crate::command::Command;
use crate::failure::STATUSES;
use crate::lines::{wrapped, WIDTH};
use crate::options::{OptionSpec, HELP};

/// The options that stand in place of a command.
pub const GLOBAL: [OptionSpec; 2] = [HELP, VERSION];

/// The option that prints the version.
pub const VERSION: OptionSpec = OptionSpec::flag("--version", "prints the version").or("-V");

/// The widest name that has its words beside it and not below.
const WIDEST: usize = 24;

/// The help of all commands.
pub fn of_all(commands: &[Command]) -> String {
    let width = commands.iter().map(|command| command.usage().len()).max();
    let width = width.unwrap_or(0);
    let line = |command: &Command| {
        let (usage, summary) = (command.usage(), command.summary);
        format!("  {usage:width$}  {summary}\n")
    };
    let lines: String = commands.iter().map(line).collect();
    let (options, statuses) = (options(&GLOBAL), statuses());
    format!("{HEAD}\nCommands:\n{lines}\n{options}\n{REST}\n{statuses}")
}

const HEAD: &str = "\
usage: yohrundel COMMAND ARGUMENTS
Plays service scripts and updates signs on the proved flash controller.
";

const REST: &str = "\
yohrundel help COMMAND says more of a command. Its options stand anywhere after
its name, a value as --name VALUE or --name=VALUE. -- ends the options: the name
of a file may begin with a hyphen after it.
";

/// The help of one command.
pub fn of_command(command: &Command) -> String {
    let (usage, details) = (command.usage(), command.details);
    let (options, keys) = (options(&command.table()), keys(command));
    format!("usage: yohrundel {usage}\n\n{details}\n\n{options}{keys}")
}

fn options(table: &[OptionSpec]) -> String {
    let rows = table.iter().map(|option| (option.usage(), option.help));
    format!("Options:\n{}", rows_of(rows.collect()))
}

fn keys(command: &Command) -> String {
    if command.keys.is_empty() {
        return String::new();
    }
    let rows = command
        .keys
        .iter()
        .map(|(key, help)| (key.to_string(), *help));
    format!("\nKeys of --json:\n{}", rows_of(rows.collect()))
}

fn statuses() -> String {
    let rows = STATUSES.map(|(status, help)| (status.to_string(), help));
    format!("Exit status:\n{}", rows_of(rows.into()))
}

/// Names in a column and their words beside them; below a name that is too wide.
fn rows_of(rows: Vec<(String, &str)>) -> String {
    let widths = rows.iter().map(|(name, _)| name.len());
    let width = widths.filter(|width| *width <= WIDEST).max().unwrap_or(0);
    let indent = width + 4;
    let mut text = String::new();
    for (name, words) in rows {
        let lines = wrapped(words, WIDTH - indent);
        let mut name = format!("  {name:width$}  ");
        if name.len() > indent {
            text += &format!("{}\n", name.trim_end());
            name.clear();
        }
        for line in lines {
            text += &format!("{name:indent$}{line}\n");
            name.clear();
        }
    }
    text
}

/// The version, as `--version` prints it: with the commit, where the command was built in a repository.
pub fn version() -> String {
    let version = env!("CARGO_PKG_VERSION");
    match env!("YOHRUNDEL_COMMIT") {
        "" => format!("yohrundel {version}\n"),
        commit => format!("yohrundel {version} ({commit})\n"),
    }
}

#[cfg(test)]
mod tests {
    use super::*;

    #[test]
    fn words_beside_and_below_names() {
        let long = "x".repeat(WIDEST + 1);
        let words = "word ".repeat(20);
        let text = rows_of(vec![
            (String::from("a"), "one"),
            (String::from("bcd"), words.trim_end()),
            (long.clone(), "two"),
        ]);
        // 73 columns remain beside the names, which hold 14 words.
        let (first, second) = ("word ".repeat(14), "word ".repeat(6));
        let (first, second) = (first.trim_end(), second.trim_end());
        let expected =
            format!("  a    one\n  bcd  {first}\n       {second}\n  {long}\n       two\n");
        assert_eq!(text, expected);
    }
}
