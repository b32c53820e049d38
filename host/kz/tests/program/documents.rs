//! The documents: the files, chapters and wrong programs that they name are there.

use std::path::Path;

use crate::guides::PAGES;
use crate::page::{read, ROOT};

/// The words of a page that begin with `crates/`, up to the first character that no file's name has,
/// without those that say NAME for a crate's name.
fn crate_paths(page: &str) -> Vec<&str> {
    let name = |c: char| c.is_ascii_alphanumeric() || "_/.-".contains(c);
    let places = page.match_indices("crates/").map(|(at, _)| &page[at..]);
    let paths = places.map(|text| text.split(|c| !name(c)).next().unwrap_or_default());
    paths.map(|path| path.trim_end_matches('.')).filter(|path| !path.contains("NAME")).collect()
}

#[test]
fn no_path_below_crates_leads_nowhere() {
    let mut paths = 0;
    for page in PAGES {
        for path in crate_paths(&read(page)) {
            assert!(Path::new(ROOT).join(path).exists(), "{page}: {path}");
            paths += 1;
        }
    }
    assert!(paths > 50, "{paths}");
}

/// The names of the edits in a crate's folder of wrong programs, sorted.
fn edits(folder: &Path) -> Vec<String> {
    let files = std::fs::read_dir(folder).into_iter().flatten();
    let paths = files.map(|file| file.expect("a file of the folder").path());
    let mut names: Vec<String> =
        paths.filter_map(|path| Some(path.file_stem()?.to_str()?.to_string())).collect();
    names.sort();
    names
}

#[test]
fn every_wrong_program_is_listed_beside_its_crate() {
    let page = read("docs/WRONG-PROGRAMS.md");
    let cells = |row: &str| row.split('|').map(|cell| cell.trim().to_string()).collect::<Vec<_>>();
    let rows: Vec<Vec<String>> = page.lines().filter(|l| l.starts_with('|')).map(cells).collect();
    let listed: std::collections::BTreeMap<String, Vec<String>> = rows
        .iter()
        .filter(|cells| cells.len() == 5 && cells[3].contains('_'))
        .map(|cells| (cells[2].clone(), cells[3].split(", ").map(String::from).collect()))
        .collect();
    let crates = std::fs::read_dir(Path::new(ROOT).join("crates")).expect("the crates");
    let mut tried = std::collections::BTreeMap::new();
    for folder in crates.map(|entry| entry.expect("a crate").path()) {
        let names = edits(&folder.join("must-fail"));
        if !names.is_empty() {
            let name = folder.file_name().and_then(|name| name.to_str()).expect("a plain name");
            tried.insert(name.to_string(), names);
        }
    }
    assert_eq!(listed, tried);
    let count: usize = tried.values().map(Vec::len).sum();
    assert!(page.contains(&format!("There are {count}.")), "{count}");
}

#[test]
fn the_promises_list_the_chapters_of_the_rules_in_order_with_their_lines() {
    let chapters = read("crates/rules/specs/Lib.antt");
    let chapters = chapters.lines().filter_map(|line| line.strip_prefix("pub mod "));
    let lines = |name: &str| read(&format!("crates/rules/specs/{name}.antt")).lines().count();
    let counted: Vec<String> =
        chapters.map(|name| format!("| {name} | {} |", lines(name))).collect();
    let page = read("docs/PROMISES.md");
    let rows = page.lines().filter(|row| counted.iter().any(|start| row.starts_with(start)));
    let listed: Vec<String> =
        rows.map(|row| row.split(" |").take(2).collect::<Vec<_>>().join(" |") + " |").collect();
    assert_eq!(listed, counted);
    assert!(counted.len() > 25, "{counted:?}");
}

#[test]
fn the_files_to_read_for_each_demand_have_the_lines_that_the_promises_say() {
    let mut files = 0;
    for row in read("docs/PROMISES.md").lines() {
        let cells: Vec<&str> = row.split('|').map(str::trim).collect();
        if cells.len() == 6 && cells[2].starts_with("crates/") {
            assert_eq!(cells[3], read(cells[2]).lines().count().to_string(), "{}", cells[2]);
            files += 1;
        }
    }
    assert!(files > 10, "{files}");
}

/// The names in backquotes of a text.
fn quoted(text: &str) -> impl Iterator<Item = &str> {
    text.split('`').skip(1).step_by(2)
}

#[test]
fn every_promise_is_a_statement_of_the_crate_of_promises() {
    let page = read("docs/PROMISES.md");
    let folder = Path::new(ROOT).join("crates/promises/proofs");
    let files = std::fs::read_dir(folder).expect("the statements");
    let paths = files.map(|file| file.expect("a file of the folder").path());
    let texts: Vec<String> = paths
        .filter(|path| path.is_file())
        .map(|path| std::fs::read_to_string(path).expect("a text"))
        .chain(["lib", "calls", "tips"].map(|name| read(&format!("crates/promises/src/{name}.rt"))))
        .collect();
    let said = |name: &str| {
        let (law, client) = (format!("pub {name} :"), format!("pub fn {name}("));
        texts.iter().any(|text| text.contains(&law) || text.contains(&client))
    };
    let mut rows = 0;
    for table in page.split("| Sentence | Statement |").skip(1) {
        for row in table.lines().skip(2).take_while(|row| row.starts_with('|')) {
            let statement = row.split('|').nth(2).expect("a statement");
            let names = quoted(statement).filter(|name| name.contains(['-', '_']) || said(name));
            let names: Vec<&str> = names.collect();
            assert!(!names.is_empty(), "{row}");
            for name in names {
                assert!(said(name), "{name}: {row}");
            }
            rows += 1;
        }
    }
    assert!(rows > 35, "{rows}");
}
