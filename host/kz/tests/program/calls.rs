//! Wrong calls and files that can't be read: exit status 2, one line that says what is wrong, and
//! nothing printed.

use kz::commands::COMMANDS;

use crate::run::{kz, kz_fed};
use crate::scratch::{Scratch, DAY_M, PLAN_M};

#[track_caller]
fn wrong(arguments: &[&str], what: &str) {
    let ran = kz(arguments);
    let said = ran.failure(2);
    assert!(said.contains(what), "{said}");
    assert!(said.contains("--help"), "{said}");
}

#[test]
fn a_call_without_a_command_or_of_an_unknown_one_is_wrong() {
    wrong(&[], "no command is given");
    wrong(&["chek"], "there is no command 'chek'");
    wrong(&["help", "chek"], "there is no command 'chek'");
}

#[test]
fn every_command_refuses_an_option_that_it_has_not() {
    for command in COMMANDS {
        wrong(&[command.name, "--nothing"], "has no option '--nothing'");
        wrong(&[command.name, "-x"], "has no option '-x'");
    }
    wrong(&["check", DAY_M, PLAN_M, "--hex"], "kz check has no option '--hex'");
}

#[test]
fn every_command_refuses_operands_too_few_or_too_many() {
    for command in COMMANDS {
        let given = vec![DAY_M; command.needed()];
        if let [_, fewer @ ..] = given.as_slice() {
            let name = command.operands[fewer.len()].name;
            wrong(&[&[command.name], fewer].concat(), &format!("{name} is missing"));
        }
        let more = [vec![command.name], vec![DAY_M; command.operands.len()], vec!["more"]];
        wrong(&more.concat(), "'more' is one operand too many");
    }
}

#[test]
fn options_have_values_where_they_take_them_and_are_given_once() {
    wrong(&["build", DAY_M, "-o"], "--output lacks its FILE");
    wrong(&["plan", DAY_M, "--k"], "--k lacks its K");
    wrong(&["build", DAY_M, "--hex=yes"], "--hex takes no value");
    wrong(&["build", DAY_M, "--hex", "--hex"], "--hex is given twice");
    wrong(&["build", DAY_M, "-o", "a", "--output=b"], "--output is given twice");
}

#[test]
fn numbers_have_to_be_numbers() {
    for text in ["ten", "-1", "1.5", "", "18446744073709551616"] {
        wrong(&["plan", DAY_M, "--k", text], "--k has to be a whole number");
        wrong(&["plan", DAY_M, "--trials", text], "--trials has to be a whole number");
        wrong(&["vehicle", DAY_M, PLAN_M, "--", text], "N has to be a whole number");
    }
}

#[test]
fn options_that_exclude_each_other_are_not_taken_together() {
    wrong(&["plan", DAY_M, "--trials", "5", "--settle"], "exclude each other");
    let ran = kz(&["build", DAY_M, "--json", "-o", "-"]);
    assert_eq!(ran.status, 2);
    assert!(ran.json().at("error").text().contains("both write to standard output"));
}

#[test]
fn standard_input_is_read_once() {
    let ran = kz_fed(&["check", "-", "-"], b"");
    assert!(ran.failure(2).contains("standard input can be read only once"));
}

#[test]
fn behind_two_hyphens_everything_is_an_operand() {
    let ran = kz(&["check", "--", "--json", PLAN_M]);
    assert!(ran.failure(2).contains("--json can't be read"));
}

#[test]
fn files_that_cannot_be_read_are_named() {
    let scratch = Scratch::new();
    let (missing, folder) = (scratch.name("none.day"), scratch.name("."));
    for name in [&missing, &folder] {
        for arguments in [vec!["check", name, PLAN_M], vec!["check", DAY_M, name]] {
            let ran = kz(&arguments);
            assert!(ran.failure(2).contains(&format!("{name} can't be read: ")), "{ran:?}");
        }
    }
}

#[test]
fn lines_that_are_no_words_are_named() {
    let scratch = Scratch::new();
    let plan = scratch.file("plan.hex", b"A0000001\nB000000G\n");
    let ran = kz(&["check", DAY_M, &plan]);
    assert!(ran.failure(2).contains("line 2, column 1: \"B000000G\" is no word"), "{ran:?}");
    let ran = kz(&["check", &plan, PLAN_M]);
    assert!(ran.failure(2).contains("line 2, column 1: \"B000000G\" is no word"), "{ran:?}");
}

#[test]
fn a_file_that_never_ends_is_given_up() {
    let ran = kz(&["show", "/dev/zero"]);
    assert!(ran.failure(2).contains("longer than any day or plan"));
}

#[test]
fn wrong_calls_are_objects_for_a_program() {
    for arguments in [&["check", "--json"][..], &["chek", "--json"], &["show", "/none", "--json"]] {
        let ran = kz(arguments);
        assert_eq!((ran.status, ran.err.as_str()), (2, ""));
        assert!(!ran.json().at("error").text().is_empty());
    }
}
