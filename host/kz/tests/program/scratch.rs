//! A folder for the files of one test, and the days and plans that the tests go by.

use std::fs;
use std::path::PathBuf;
use std::process;
use std::sync::atomic::{AtomicUsize, Ordering};

use reference::bytes;

/// The sample day as a file.
pub const DAY_M: &str = concat!(env!("CARGO_MANIFEST_DIR"), "/../../examples/day-m.day");
/// Its plan as a file.
pub const PLAN_M: &str = concat!(env!("CARGO_MANIFEST_DIR"), "/../../examples/day-m.plan");

/// The sample instance of the Solomon form as a file.
pub const HARBOUR: &str = concat!(env!("CARGO_MANIFEST_DIR"), "/../../examples/harbour.txt");

static COUNT: AtomicUsize = AtomicUsize::new(0);

/// A folder that is removed in the end.
pub struct Scratch {
    folder: PathBuf,
}

impl Scratch {
    pub fn new() -> Scratch {
        let count = COUNT.fetch_add(1, Ordering::Relaxed);
        let name = format!("kz-{}-{count}", process::id());
        let folder = PathBuf::from(env!("CARGO_TARGET_TMPDIR")).join(name);
        fs::create_dir_all(&folder).expect("there is room for scratch files");
        Scratch { folder }
    }

    /// The name of a file of this folder.
    pub fn name(&self, name: &str) -> String {
        self.folder.join(name).to_str().expect("the folder is UTF-8").to_string()
    }

    /// Writes a file, and gives its name.
    pub fn file(&self, name: &str, content: &[u8]) -> String {
        fs::write(self.name(name), content).expect("a scratch file is written");
        self.name(name)
    }

    /// Writes words as raw bytes.
    pub fn words(&self, name: &str, words: &[u32]) -> String {
        self.file(name, &bytes::write(words))
    }

    /// The names of all files, in order.
    pub fn files(&self) -> Vec<String> {
        let entries = fs::read_dir(&self.folder).expect("the folder is there");
        let name = |entry: std::io::Result<fs::DirEntry>| {
            entry.expect("the folder is read").file_name().to_string_lossy().into_owned()
        };
        let mut names: Vec<String> = entries.map(name).collect();
        names.sort();
        names
    }
}

impl Drop for Scratch {
    fn drop(&mut self) {
        fs::remove_dir_all(&self.folder).ok();
    }
}
