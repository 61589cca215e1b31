//! `yohrundel completion`: a script that completes commands, options and file names in a shell.

use crate::arguments::Arguments;
use crate::command::{Command, First};
use crate::failure::Answer;
use crate::help_text::GLOBAL;
use crate::options::OptionSpec;
use crate::COMMANDS;

pub const COMMAND: Command = Command {
    name: "completion",
    arguments: "SHELL",
    first: First::OneOf(&["bash"]),
    summary: "prints completions for a shell",
    details: "\
SHELL is bash. The script completes the names of commands, options and files.
This line in ~/.bashrc loads it in every new shell:
  source <(yohrundel completion bash)",
    options: &[],
    keys: &[],
    run,
};

fn run(mut arguments: Arguments) -> Answer {
    let is_bash = |text: &str| (text == "bash").then_some(());
    arguments.form("SHELL", "bash", is_bash)?;
    arguments.end()?;
    let (names, options) = (names(COMMANDS), all_names(&GLOBAL, |_| true));
    let cases: String = COMMANDS.iter().map(case).collect();
    let script = SCRIPT.replace("COMMANDS", &names);
    let script = script.replace("GLOBAL", &options);
    Ok(script.replace("        CASES\n", &cases).into())
}

fn names(commands: &[Command]) -> String {
    let names: Vec<&str> = commands.iter().map(|command| command.name).collect();
    names.join(" ")
}

/// The names of the options of a table for which a test holds.
fn all_names(table: &[OptionSpec], test: fn(&OptionSpec) -> bool) -> String {
    let options = table.iter().filter(|option| test(option));
    let names: Vec<&str> = options.flat_map(OptionSpec::names).collect();
    names.join(" ")
}

/// The words of one command: its options, those with the name of a file, those with another value, and its first argument.
fn case(command: &Command) -> String {
    let (name, table) = (command.name, command.table());
    let options = all_names(&table, |_| true);
    let files = all_names(&table, OptionSpec::takes_file);
    let values = all_names(&table, |option| {
        option.takes_value() && !option.takes_file()
    });
    let first = match command.first {
        First::Any => String::new(),
        First::OneOf(words) => words.join(" "),
        First::Command => names(COMMANDS),
    };
    format!(
        "        {name})\n            options='{options}'\n            files='{files}'\n            \
         values='{values}'\n            first='{first}' ;;\n"
    )
}

/// Where it gives no words, bash completes file names by itself.
const SCRIPT: &str = r#"# Completes the command yohrundel in bash: source <(yohrundel completion bash)
_yohrundel() {
    local IFS=$' \t\n' options='' files='' values='' first='' words=''
    local word=${COMP_WORDS[COMP_CWORD]} before=${COMP_WORDS[COMP_CWORD - 1]}
    # bash parts --name=value at the =.
    if [[ $word == = ]]; then
        word=''
    elif [[ $before == = ]]; then
        before=${COMP_WORDS[COMP_CWORD - 2]}
    fi
    case ${COMP_WORDS[1]} in
        CASES
    esac
    if ((COMP_CWORD == 1)); then
        words='COMMANDS GLOBAL'
    elif [[ " ${COMP_WORDS[*]:2:COMP_CWORD-2} " == *' -- '* || " $files " == *" $before "* ]]; then
        words=''
    elif [[ " $values " == *" $before "* ]]; then
        compopt +o default 2> /dev/null
    elif [[ $word == -* ]]; then
        words=$options
    elif ((COMP_CWORD == 2)); then
        words=$first
    fi
    mapfile -t COMPREPLY < <(compgen -W "$words" -- "$word")
}
complete -o default -F _yohrundel yohrundel
"#;
