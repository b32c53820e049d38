//! The help, the manual page and the completions name all that the program has.

use std::fs;
use std::path::{Path, PathBuf};
use std::process::Command;

use kz::catalogue::Flag;
use kz::commands::COMMANDS;
use kz::{completion, manual};

use crate::page::ROOT;
use crate::run::kz;

const PACKAGE: &str = env!("CARGO_MANIFEST_DIR");

fn committed(name: &str) -> String {
    fs::read_to_string(format!("{PACKAGE}/{name}")).expect("the file is there")
}

/// The names of all options, with the command that has each.
fn options() -> impl Iterator<Item = (&'static str, &'static Flag)> {
    COMMANDS.iter().flat_map(|command| command.all_options().map(|option| (command.name, option)))
}

#[test]
fn the_help_names_every_command() {
    let help = kz(&["--help"]);
    assert_eq!(kz(&["-h"]).text(), help.answer());
    assert_eq!(kz(&["help"]).text(), help.answer());
    for command in COMMANDS {
        assert!(help.text().contains(&format!("\n  {} ", command.name)), "{}", command.name);
        assert!(help.text().contains(command.summary), "{}", command.name);
    }
}

#[test]
fn the_help_of_a_command_names_what_it_takes() {
    for command in COMMANDS {
        let help = kz(&[command.name, "--help"]);
        assert_eq!(kz(&["help", command.name]).text(), help.answer());
        for operand in command.operands {
            assert!(help.text().contains(&format!("\n  {} ", operand.name)), "{}", operand.name);
        }
        for option in command.all_options() {
            assert!(help.text().contains(&format!("  {}", option.long_form())), "{}", option.name);
        }
        assert!(help.text().lines().all(|line| line.chars().count() <= 90), "{}", help.text());
    }
}

#[test]
fn the_help_of_plan_says_why_an_interrupt_is_sound() {
    let help = kz(&["plan", "--help"]).text().replace('\n', " ");
    assert!(help.contains("the plan of every budget is lawful and never longer than"), "{help}");
    assert!(help.contains("the exit status is 0"), "{help}");
}

/// The lines of a text as one line, with single blanks between its words.
fn joined(text: &str) -> String {
    text.split_whitespace().collect::<Vec<_>>().join(" ")
}

#[test]
fn the_help_of_plan_and_the_manual_page_say_what_k_and_trials_do() {
    let help = joined(kz(&["help", "plan"]).answer());
    let page = joined(&committed("man/kz.1")).replace("\\-", "-");
    for said in [
        "--k K try each stop beside its K nearest stops, 1 to 50; 5-50: beside 5, then 10, 25 and \
         50; without --k both 5-50 and 50",
        "--trials N stop after N trials, though more might still make the plan shorter",
        "K says how many nearest stops each stop is tried beside: those with the shortest drive \
         from it, of all whose windows let a vehicle go on to them. A larger K means more trials, \
         most often a shorter plan, and more time. With K 5-50 the set grows: planning begins with \
         5; where no trial is kept it goes on to 10, 25 and 50, and from each trial that is kept \
         back to 5.",
        "Without --k the day is planned both with K 5-50 and with K 50, and the shorter plan is \
         kept: neither is the better one on every day. The answer says which it is, and what the \
         other way came to. A day of 60 stops settles both ways within a tenth of a second, one of \
         240 within a few seconds.",
        "--trials is for a plan that is wanted sooner: planning ends after N trials at the latest, \
         of each way where there are two. The plan is lawful, and never longer than with a smaller \
         N. It is called `not settled` where more trials might still make it shorter.",
    ] {
        assert!(help.contains(said), "{said}\n{help}");
        assert!(page.contains(said), "{said}\n{page}");
    }
}

/// The names of documents in a text, sorted.
fn documents(text: &str) -> Vec<&str> {
    let words = text.split(|c: char| !c.is_ascii_alphanumeric() && !"./-".contains(c));
    let named = words.map(|word| word.trim_end_matches('.')).filter(|word| word.ends_with(".md"));
    let mut names: Vec<&str> = named.collect();
    names.sort_unstable();
    names.dedup();
    names
}

#[test]
fn the_manual_page_and_the_help_name_the_documents_that_are_installed() {
    let installed = ["FORMAT.md", "GUIDE.md", "INTEGRATE.md"];
    let page = committed("man/kz.1");
    assert_eq!(documents(&page), installed);
    assert_eq!(documents(kz(&["help"]).answer()), installed);
    let place = "Installed with kz, in share/doc/kazhuvendi beside the folder bin: ";
    assert!(page.contains(&format!(".SH DOCUMENTS\n.PP\n{place}")), "{page}");
    assert!(joined(kz(&["help"]).text()).contains(&format!("Documents: {place}")));
    for name in installed {
        assert!(Path::new(ROOT).join("docs").join(name).exists(), "{name}");
    }
}

/// The source files below a folder.
fn sources(folder: &Path) -> Vec<PathBuf> {
    let entries = fs::read_dir(folder).expect("the folder is there");
    let paths = entries.map(|entry| entry.expect("the folder is read").path());
    let below = |path: PathBuf| if path.is_dir() { sources(&path) } else { vec![path] };
    paths.flat_map(below).collect()
}

#[test]
fn nothing_that_is_printed_cites_what_users_do_not_have() {
    let files = sources(&Path::new(PACKAGE).join("src"));
    for file in &files {
        let text = fs::read_to_string(file).expect("a source is UTF-8");
        for line in text.lines().filter(|line| !line.trim_start().starts_with("//")) {
            for cited in ["document 0", "docs/", "examples/", "crates/", "host/", "PROMISES.md"] {
                assert!(!line.contains(cited), "{}: {line}", file.display());
            }
        }
    }
    assert!(files.len() > 30, "{files:?}");
}

#[test]
fn the_version_is_told() {
    assert_eq!(kz(&["--version"]).answer(), format!("kz {}\n", env!("CARGO_PKG_VERSION")));
    assert_eq!(kz(&["-V"]).answer(), kz(&["--version"]).text());
}

#[test]
fn the_manual_page_names_every_command_and_option() {
    let page = committed("man/kz.1");
    assert_eq!(page, manual::page(), "`make manual` writes it anew");
    for command in COMMANDS {
        assert!(page.contains(&format!("\n.SS kz {}", command.name)), "{}", command.name);
    }
    for (command, option) in options() {
        assert!(page.contains(&option.long_form().replace('-', "\\-")), "{command} {option:?}");
    }
}

#[test]
fn the_manual_page_is_set_without_a_warning() {
    let page = format!("{PACKAGE}/man/kz.1");
    let Ok(set) = Command::new("groff").args(["-man", "-Tutf8", "-ww", &page]).output() else {
        println!("there is no groff here: the page was not set");
        return;
    };
    assert_eq!(String::from_utf8_lossy(&set.stderr), "");
    assert!(set.stdout.len() > 5_000);
}

#[test]
fn the_completions_name_every_command_and_option() {
    let bash = committed("completions/kz.bash");
    let zsh = committed("completions/_kz");
    let fish = committed("completions/kz.fish");
    assert_eq!(bash, completion::bash(), "`make manual` writes it anew");
    assert_eq!(zsh, completion::zsh(), "`make manual` writes it anew");
    assert_eq!(fish, completion::fish(), "`make manual` writes it anew");
    for (command, option) in options() {
        let name = option.name;
        assert!(bash.contains(&format!("        {command}) options=")), "{command}");
        assert!(bash.contains(&format!(" {name}")) || bash.contains(&format!("'{name}")), "{name}");
        assert!(zsh.contains(&format!("        {command}) _arguments")), "{command}");
        assert!(zsh.contains(&format!("'{name}[")), "{name}");
        let in_fish = format!("'__kz_command_is {command}'");
        let named = format!("-l {} ", name.trim_start_matches('-'));
        assert!(
            fish.lines().any(|line| line.contains(&in_fish) && line.contains(&named)),
            "{name}"
        );
    }
}

/// What bash offers for the last of these words.
fn offered(words: &[&str]) -> Vec<String> {
    let script = "source \"$0\"; COMP_WORDS=(\"$@\"); COMP_CWORD=$(($# - 1)); _kz; \
                  printf '%s\\n' \"${COMPREPLY[@]}\"";
    let completion = format!("{PACKAGE}/completions/kz.bash");
    let mut bash = Command::new("bash");
    bash.args(["-c", script, &completion]).args(words).current_dir(format!("{PACKAGE}/man"));
    let output = bash.output().expect("bash is there");
    assert_eq!(String::from_utf8_lossy(&output.stderr), "");
    let text = String::from_utf8(output.stdout).expect("it is UTF-8");
    text.lines().filter(|line| !line.is_empty()).map(str::to_string).collect()
}

#[test]
fn bash_completes_commands_options_and_files() {
    assert_eq!(offered(&["kz", "ch"]), ["check", "chart"]);
    assert_eq!(offered(&["kz", "plan", "--t"]), ["--trials"]);
    assert_eq!(offered(&["kz", "check", "--t"]), [""; 0]);
    assert_eq!(offered(&["kz", "check", "k"]), ["kz.1"]);
    assert_eq!(offered(&["kz", "build", "-o", "k"]), ["kz.1"]);
    assert_eq!(offered(&["kz", "plan", "--k", ""]), [""; 0]);
    assert_eq!(offered(&["kz", "help", "un"]), ["unpack"]);
    assert_eq!(offered(&["kz", "help", "plan", ""]), [""; 0]);
    for (command, option) in options() {
        assert_eq!(offered(&["kz", command, option.name])[0], option.name);
    }
}

#[test]
fn every_shell_completes_help_with_the_commands_once() {
    let names: Vec<&str> = COMMANDS.iter().map(|command| command.name).collect();
    assert_eq!(offered(&["kz", "help", ""]), names);
    let fish = committed("completions/kz.fish");
    let behind_help =
        "complete -c kz -n '__kz_command_is help; and test (count (commandline -opc)) -eq 2' -a ";
    let offers = fish.lines().filter_map(|line| line.strip_prefix(behind_help));
    let offers: Vec<&str> = offers.map(|rest| rest.split(' ').next().unwrap_or_default()).collect();
    assert_eq!(offers, names);
    let zsh = committed("completions/_kz");
    let (_, list) = zsh.split_once("    commands=(\n").expect("there is a list");
    let (list, _) = list.split_once("    )\n").expect("the list ends");
    let listed = list.lines().map(|line| line.trim_start_matches([' ', '\'']));
    let listed: Vec<&str> = listed.map(|line| line.split(':').next().unwrap_or_default()).collect();
    assert_eq!(listed, names);
    assert!(zsh.contains("\n        help) (( CURRENT > 2 )) || _describe command commands ;;\n"));
}
