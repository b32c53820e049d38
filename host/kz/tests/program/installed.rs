//! What `make install` puts in place.

use std::fs;
use std::path::Path;
use std::process::Command;

use crate::page::{links, read, ROOT};
use crate::scratch::Scratch;

/// Installs below a scratch folder. The program that is tested stands in for one that make builds.
fn install() -> Scratch {
    let scratch = Scratch::new();
    let mut make = Command::new("make");
    make.args(["--silent", "--old-file=kz", "install", "PREFIX=/usr"]);
    make.arg(format!("DESTDIR={}", scratch.name("root")));
    make.arg(concat!("KZ=", env!("CARGO_BIN_EXE_kz")));
    make.env_remove("MAKEFLAGS").current_dir(ROOT);
    let ran = make.output().expect("make is there");
    assert!(ran.status.success(), "{}", String::from_utf8_lossy(&ran.stderr));
    scratch
}

/// The files below a folder, without the folder's own name.
fn files(folder: &Path) -> Vec<String> {
    let mut found = vec![];
    for entry in fs::read_dir(folder).expect("the folder is there") {
        let path = entry.expect("the folder is read").path();
        let name = path.file_name().and_then(|name| name.to_str()).expect("a plain name");
        if path.is_dir() {
            found.extend(files(&path).iter().map(|below| format!("{name}/{below}")));
        } else {
            found.push(name.to_string());
        }
    }
    found.sort();
    found
}

#[test]
fn program_library_header_manual_completions_and_documents_are_installed() {
    let scratch = install();
    assert_eq!(
        files(Path::new(&scratch.name("root/usr"))),
        [
            "bin/kz",
            "include/kazhuvendi.h",
            "lib/libkazhuvendi.a",
            "share/bash-completion/completions/kz",
            "share/doc/kazhuvendi/FORMAT.md",
            "share/doc/kazhuvendi/GUIDE.md",
            "share/doc/kazhuvendi/INTEGRATE.md",
            "share/doc/kazhuvendi/LICENSE",
            "share/doc/kazhuvendi/PROMISES.md",
            "share/doc/kazhuvendi/examples/README.md",
            "share/doc/kazhuvendi/examples/day-m.day",
            "share/doc/kazhuvendi/examples/day-m.plan",
            "share/doc/kazhuvendi/examples/depot.day",
            "share/doc/kazhuvendi/examples/depot.txt",
            "share/doc/kazhuvendi/examples/harbour.txt",
            "share/doc/kazhuvendi/pictures/greedy.svg",
            "share/doc/kazhuvendi/pictures/settled.svg",
            "share/fish/vendor_completions.d/kz.fish",
            "share/man/man1/kz.1",
            "share/zsh/site-functions/_kz",
        ]
    );
    let version = Command::new(scratch.name("root/usr/bin/kz")).arg("--version").output();
    assert!(version.expect("it can be run").status.success());
}

#[test]
fn the_documents_that_the_manual_page_names_are_installed() {
    let scratch = install();
    let folder = scratch.name("root/usr/share/doc/kazhuvendi");
    let page = read("host/kz/man/kz.1");
    let words = page.split(|c: char| c.is_whitespace() || ",;:()".contains(c));
    let named = words.map(|word| word.trim_end_matches('.')).filter(|word| word.ends_with(".md"));
    let named: Vec<&str> = named.filter_map(|path| path.rsplit('/').next()).collect();
    assert!(named.contains(&"FORMAT.md"), "{named:?}");
    for name in named {
        assert!(Path::new(&folder).join(name).exists(), "{name}");
    }
    for guide in ["docs/GUIDE.md", "docs/FORMAT.md"] {
        for link in links(&read(guide)) {
            assert!(Path::new(&folder).join(link).exists(), "{guide}: {link}");
        }
    }
}
