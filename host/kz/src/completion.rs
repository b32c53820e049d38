//! Completion for three shells, made from the table of commands.

use crate::catalogue::{Command, Flag};
use crate::commands::COMMANDS;

/// What may stand in place of a command.
const BESIDE_COMMANDS: &str = "help --help --version";

const MADE: &str = "Written by `make manual` from the program's own table.";

/// For bash.
pub fn bash() -> String {
    let names: Vec<&str> = COMMANDS.iter().map(|command| command.name).collect();
    let options: String = COMMANDS.iter().map(bash_options).collect();
    let (names, (files, numbers)) = (names.join(" "), values());
    format!(
        "# Completion of kz for bash. {MADE}
_kz() {{
    local word=${{COMP_WORDS[COMP_CWORD]}} before=${{COMP_WORDS[COMP_CWORD - 1]}} options=
    if [ \"$COMP_CWORD\" -eq 1 ]; then
        mapfile -t COMPREPLY < <(compgen -W '{names} {BESIDE_COMMANDS}' -- \"$word\")
        return
    fi
    case $before in
        {files}) mapfile -t COMPREPLY < <(compgen -f -- \"$word\"); return ;;
        {numbers}) COMPREPLY=(); return ;;
    esac
    case ${{COMP_WORDS[1]}} in
{options}        help) [ \"$COMP_CWORD\" -gt 2 ] || options='{names}' ;;
    esac
    if [[ $word == -* || ${{COMP_WORDS[1]}} == help ]]; then
        mapfile -t COMPREPLY < <(compgen -W \"$options\" -- \"$word\")
    else
        mapfile -t COMPREPLY < <(compgen -f -- \"$word\")
    fi
}}
complete -o filenames -F _kz kz
"
    )
}

fn bash_options(command: &Command) -> String {
    let names: Vec<String> = command.all_options().map(|option| spellings(option, " ")).collect();
    format!("        {}) options='{}' ;;\n", command.name, names.join(" "))
}

/// The options that take a file, and those that take a number, as patterns.
fn values() -> (String, String) {
    let mut patterns = [vec![], vec![]];
    for option in COMMANDS.iter().flat_map(Command::all_options) {
        let Some(value) = option.value else { continue };
        let list = &mut patterns[usize::from(value != "FILE")];
        let pattern = spellings(option, "|");
        if !list.contains(&pattern) {
            list.push(pattern);
        }
    }
    let [files, numbers] = patterns.map(|list| list.join("|"));
    (files, numbers)
}

fn spellings(option: &Flag, between: &str) -> String {
    let letter = option.letter.map_or(String::new(), |letter| format!("-{letter}{between}"));
    letter + option.name
}

/// For zsh.
pub fn zsh() -> String {
    let describe = |command: &Command| {
        let about = command.summary.replace(':', "\\:");
        format!("        {}\n", quoted(&format!("{}:{about}", command.name), "'\\''"))
    };
    let commands: String = COMMANDS.iter().map(describe).collect();
    let options: String = COMMANDS.iter().map(zsh_options).collect();
    format!(
        "#compdef kz
# Completion of kz for zsh. {MADE}
_kz() {{
    local -a commands
    commands=(
{commands}    )
    if (( CURRENT == 2 )); then
        commands+=('help:print the help of a command')
        _describe command commands
        compadd -- --help --version
        return
    fi
    shift words
    (( CURRENT-- ))
    case $words[1] in
{options}        help) (( CURRENT > 2 )) || _describe command commands ;;
    esac
}}
_kz \"$@\"
"
    )
}

fn zsh_options(command: &Command) -> String {
    let mut options = String::new();
    for option in command.all_options() {
        let about = option.about.replace('[', "\\[").replace(']', "\\]").replace(':', "\\:");
        let value = match option.value {
            Some("FILE") => ":file:_files".to_string(),
            Some(value) => format!(":{value}:"),
            None => String::new(),
        };
        for name in spellings(option, " ").split(' ') {
            let spec = quoted(&format!("{name}[{about}]{value}"), "'\\''");
            options += &format!(" \\\n            {spec}");
        }
    }
    let files = if command.operands.is_empty() { "" } else { " \\\n            '*:file:_files'" };
    format!("        {}) _arguments{options}{files} ;;\n", command.name)
}

/// For fish.
pub fn fish() -> String {
    let mut text = format!("# Completion of kz for fish. {MADE}\n{FISH_COMMAND}");
    text += "complete -c kz -f\n";
    text += &fish_commands("__fish_use_subcommand");
    text += "complete -c kz -n __fish_use_subcommand -a help -d 'print the help of a command'\n";
    text += "complete -c kz -n __fish_use_subcommand -l help -d 'print the help'\n";
    text += "complete -c kz -n __fish_use_subcommand -l version -d 'print the version'\n";
    text += &fish_commands("'__kz_command_is help; and test (count (commandline -opc)) -eq 2'");
    COMMANDS.iter().for_each(|command| text += &fish_options(command));
    text
}

/// Tells by the word behind `kz` alone: behind `kz help` the name of a command is no command.
const FISH_COMMAND: &str = "\
function __kz_command_is
    set -l words (commandline -opc)
    test (count $words) -ge 2; and test $words[2] = $argv[1]
end
";

/// The names of the commands, where this holds.
fn fish_commands(condition: &str) -> String {
    let line = |command: &Command| {
        let about = quoted(command.summary, "\\'");
        format!("complete -c kz -n {condition} -a {} -d {about}\n", command.name)
    };
    COMMANDS.iter().map(line).collect()
}

fn fish_options(command: &Command) -> String {
    let begin = format!("complete -c kz -n '__kz_command_is {}'", command.name);
    let mut text = String::new();
    if !command.operands.is_empty() {
        text += &format!("{begin} -F\n");
    }
    for option in command.all_options() {
        let letter = option.letter.map_or(String::new(), |letter| format!(" -s {letter}"));
        let value = match option.value {
            Some("FILE") => " -r -F",
            Some(_) => " -x",
            None => "",
        };
        let name = option.name.trim_start_matches('-');
        text += &format!("{begin}{letter} -l {name}{value} -d {}\n", quoted(option.about, "\\'"));
    }
    text
}

/// Between single quotes, with those inside written as this shell wants them.
fn quoted(text: &str, quote: &str) -> String {
    format!("'{}'", text.replace('\'', quote))
}
