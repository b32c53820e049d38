//! The guides: what they show is what the program does.

use std::fs;
use std::os::unix::fs::symlink;
use std::path::Path;
use std::process::{Command, Stdio};

use crate::page::{blocks, links, read, Block, ROOT};
use crate::scratch::Scratch;

pub const PAGES: [&str; 16] = [
    "CONTRIBUTING.md",
    "README.md",
    "docs/DECISIONS.md",
    "docs/FORMAT.md",
    "docs/GUIDE.md",
    "docs/INTEGRATE.md",
    "docs/NEXT.md",
    "docs/PROMISES.md",
    "docs/WRONG-PROGRAMS.md",
    "docs/changes/Q-1.md",
    "docs/changes/Q-12.md",
    "docs/changes/Q-3.md",
    "docs/changes/Q-6.md",
    "docs/changes/promises.md",
    "docs/changes/rules.md",
    "examples/README.md",
];

/// A folder in which commands find what they would find in the repository's root.
fn root() -> Scratch {
    let scratch = Scratch::new();
    for name in ["examples", "host", "target"] {
        symlink(Path::new(ROOT).join(name), scratch.name(name)).expect("a link is made");
    }
    scratch
}

/// What the commands print, on either output.
fn printed(commands: &str, folder: &Scratch) -> String {
    let program = Path::new(env!("CARGO_BIN_EXE_kz"));
    let found = std::env::var("PATH").expect("there is a path");
    let path = format!("{}:{found}", program.parent().expect("it is in a folder").display());
    let ran = Command::new("bash")
        .args(["-c", &format!("exec 2>&1\n{commands}")])
        .env("PATH", path)
        .current_dir(folder.name("."))
        .stdin(Stdio::null())
        .output();
    String::from_utf8(ran.expect("bash is there").stdout).expect("what is printed is UTF-8")
}

/// Runs a page's blocks of `sh` in turn. Each prints the block of `text` behind it, or nothing. With
/// `make guides` the page is written anew with what is printed.
fn follow(name: &str) -> Scratch {
    let folder = root();
    let page = read(name);
    let mut parts: Vec<String> = page.split("\n```").map(str::to_string).collect();
    let blocks = blocks(&page);
    assert!(blocks.iter().any(|block| block.language == "sh"), "{name} has commands");
    let none = [Block { language: String::new(), text: String::new(), link: None }];
    for (i, (block, next)) in blocks.iter().zip(blocks[1..].iter().chain(&none)).enumerate() {
        let shown = if next.language == "text" { next.text.as_str() } else { "" };
        match block.language.as_str() {
            "sh" => {
                let printed = printed(&block.text, &folder);
                if writes_pages() && !shown.is_empty() {
                    parts[2 * (i + 1) + 1] = format!("text\n{}", printed.trim_end_matches('\n'));
                } else {
                    assert_eq!(printed, shown, "{name}: {}", block.text);
                }
            }
            "text" | "c" | "rust" => {}
            other => panic!("{name} has a block of {other:?}"),
        }
        assert!(block.language == "sh" || shown.is_empty(), "{name}: nothing prints {shown}");
    }
    if writes_pages() {
        fs::write(Path::new(ROOT).join(name), parts.join("\n```")).expect("the page is written");
    }
    folder
}

fn writes_pages() -> bool {
    std::env::var_os("WRITE_PAGES").is_some()
}

#[test]
fn the_commands_of_the_readme_print_what_it_shows() {
    follow("README.md");
}

#[test]
fn the_commands_of_the_guide_print_what_it_shows_and_draw_its_pictures() {
    let folder = follow("docs/GUIDE.md");
    let pictures = fs::read_dir(format!("{ROOT}/docs/pictures")).expect("there are pictures");
    let names = pictures.map(|entry| entry.expect("the folder is read").file_name());
    let names: Vec<String> = names.map(|name| name.into_string().expect("a plain name")).collect();
    for name in &names {
        let drawn = fs::read_to_string(folder.name(name)).expect("the guide draws it");
        assert!(drawn == read(&format!("docs/pictures/{name}")), "{name}: `make pictures`");
    }
    assert!(names.len() >= 2, "{names:?}");
}

#[test]
fn the_commands_of_the_page_on_integration_print_what_it_shows() {
    follow("docs/INTEGRATE.md");
}

#[test]
fn the_programs_on_a_page_are_the_files_that_it_links_to() {
    let mut programs = 0;
    for page in PAGES {
        let folder = Path::new(page).parent().expect("a page is in a folder");
        for block in blocks(&read(page)) {
            if ["c", "rust"].contains(&block.language.as_str()) {
                let link = block.link.unwrap_or_else(|| panic!("{page}: no link before a program"));
                let file = folder.join(link);
                assert_eq!(block.text, read(file.to_str().expect("a plain name")), "{page}");
                programs += 1;
            }
        }
    }
    assert!(programs >= 2, "{programs}");
}

#[test]
fn no_link_leads_nowhere() {
    for page in PAGES {
        let folder = Path::new(ROOT).join(page);
        let folder = folder.parent().expect("a page is in a folder");
        for link in read(page).split("\n```").step_by(2).flat_map(links) {
            assert!(folder.join(link).exists(), "{page}: {link}");
        }
    }
}
