//! A page of the documentation: its blocks of code and its links.

use std::fs;

/// The repository's root, which the names of pages start from.
pub const ROOT: &str = concat!(env!("CARGO_MANIFEST_DIR"), "/../..");

/// A block between two lines of ```.
#[derive(Debug)]
pub struct Block {
    /// What stands behind the first ```.
    pub language: String,
    /// The lines between.
    pub text: String,
    /// Where the last link before it leads.
    pub link: Option<String>,
}

/// A page as it is committed.
pub fn read(name: &str) -> String {
    fs::read_to_string(format!("{ROOT}/{name}")).unwrap_or_else(|error| panic!("{name}: {error}"))
}

/// The blocks of a page, in order.
pub fn blocks(page: &str) -> Vec<Block> {
    let mut parts = page.split("\n```");
    let mut before = parts.next().unwrap_or_default();
    let mut blocks = Vec::new();
    while let Some(opened) = parts.next() {
        let (language, text) = opened.split_once('\n').expect("a block has a first line");
        let link = links(before).last().map(str::to_string);
        blocks.push(Block { language: language.to_string(), text: format!("{text}\n"), link });
        before = parts.next().expect("a block is closed");
        assert!(before.is_empty() || before.starts_with('\n'), "a block is closed by ``` alone");
    }
    blocks
}

/// Where the links of a part of a page lead, without those to other sites.
pub fn links(part: &str) -> impl Iterator<Item = &str> {
    let behind = part.split("](").skip(1);
    behind.filter_map(|text| text.split(')').next()).filter(|link| !link.contains("://"))
}
