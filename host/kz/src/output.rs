//! Where answers go: to standard output, or to a file that is there whole or not at all.

use std::ffi::OsStr;
use std::fs::{self, File, Metadata, OpenOptions, Permissions};
use std::io::{self, ErrorKind, Write};
use std::os::unix::fs::MetadataExt;
use std::path::{Path, PathBuf};
use std::process;
use std::time::{SystemTime, UNIX_EPOCH};

use crate::answer::Failure;
use crate::interrupt;
use crate::unnamed;

/// Writes to standard output.
pub fn print(bytes: &[u8]) -> Result<(), Failure> {
    let mut output = io::stdout().lock();
    match output.write_all(bytes).and_then(|()| output.flush()) {
        Err(error) if error.kind() == ErrorKind::BrokenPipe => Err(Failure::NobodyReads),
        written => written.map_err(|error| Failure::Unprinted(error.to_string())),
    }
}

/// Refuses to write a file that is read by the same call, under whatever name it is read.
pub fn spare_input<'a>(
    target: &OsStr,
    inputs: impl Iterator<Item = &'a OsStr>,
) -> Result<(), Failure> {
    let Some(replaced) = identity(target) else { return Ok(()) };
    for input in inputs {
        let (path, shown) = match input.to_str() {
            Some("-") => (OsStr::new("/dev/stdin"), "the file on standard input".to_string()),
            _ => (input, input.display().to_string()),
        };
        if identity(path) == Some(replaced) {
            return Err(Failure::System(format!(
                "-o {} would replace {shown}, which this call reads: give -o another name",
                target.display()
            )));
        }
    }
    Ok(())
}

/// The device and the number of a file. What is no file, a pipe or a device, is not replaced.
fn identity(name: &OsStr) -> Option<(u64, u64)> {
    let there = fs::metadata(name).ok().filter(Metadata::is_file)?;
    Some((there.dev(), there.ino()))
}

/// Writes a file. It is written beside its place first and then renamed, so that nobody ever finds
/// half of it; where that fails, what stood there before still does and nothing is left beside it.
pub fn write(name: &OsStr, bytes: &[u8]) -> Result<(), Failure> {
    interrupt::hold();
    write_whole(Path::new(name), bytes)
        .map_err(|error| Failure::System(format!("{} can't be written: {error}", name.display())))
}

fn write_whole(target: &Path, bytes: &[u8]) -> io::Result<()> {
    match fs::metadata(target) {
        Ok(there) if there.is_dir() => Err(ErrorKind::IsADirectory.into()),
        // A pipe or a device takes the bytes as they come; it must not be replaced by a file.
        // Nothing is left there by an interrupt, which must end the wait for a pipe's reader.
        Ok(there) if !there.is_file() => {
            interrupt::let_go();
            File::create(target)?.write_all(bytes)
        }
        // Where the name is a link, the file that it leads to is replaced, and the link stays.
        Ok(there) => {
            permitted(target, &there)?;
            replace(&fs::canonicalize(target)?, bytes, Some(there.permissions()))
        }
        Err(error) if error.kind() == ErrorKind::NotFound => {
            replace(&behind_links(target), bytes, None)
        }
        Err(error) => Err(error),
    }
}

/// Renaming needs no permission of the file that it replaces, so that is asked for here.
fn permitted(target: &Path, there: &Metadata) -> io::Result<()> {
    let opened = OpenOptions::new().write(true).open(target);
    let denied = opened.is_err_and(|error| error.kind() == ErrorKind::PermissionDenied);
    if denied || there.permissions().readonly() {
        return Err(io::Error::other(
            "it is read-only; allow writing with chmod, or give -o another name",
        ));
    }
    Ok(())
}

/// Where a link leads whose file is not there yet. A path has at most 40 links on Linux.
fn behind_links(target: &Path) -> PathBuf {
    let mut path = target.to_path_buf();
    for _ in 0..40 {
        let Ok(next) = fs::read_link(&path) else { break };
        path.pop();
        path.push(next);
    }
    path
}

fn replace(target: &Path, bytes: &[u8], permissions: Option<Permissions>) -> io::Result<()> {
    let mut beside = Beside::create(target)?;
    if let Some(permissions) = permissions {
        beside.file.set_permissions(permissions)?;
    }
    beside.file.write_all(bytes)?;
    beside.file.sync_all()?;
    beside.put_in_place(target)
}

/// A file beside the one that it will become, without a name until it is whole where the file system
/// has such files.
struct Beside {
    file: File,
    path: PathBuf,
    named: bool,
}

impl Beside {
    fn create(target: &Path) -> io::Result<Beside> {
        let folder = target.parent().ok_or(ErrorKind::InvalidInput)?;
        let path = folder.join(passing_name());
        let folder = if folder.as_os_str().is_empty() { Path::new(".") } else { folder };
        if let Ok(file) = unnamed::create(folder) {
            return Ok(Beside { file, path, named: false });
        }
        let file = OpenOptions::new().write(true).create_new(true).open(&path)?;
        Ok(Beside { file, path, named: true })
    }

    /// A name can be given to a file without one only where no file has it.
    fn put_in_place(mut self, target: &Path) -> io::Result<()> {
        if !self.named {
            match unnamed::name(&self.file, target) {
                Err(error) if error.kind() == ErrorKind::AlreadyExists => {}
                named => return named,
            }
            unnamed::name(&self.file, &self.path)?;
            self.named = true;
        }
        fs::rename(&self.path, target)
    }
}

impl Drop for Beside {
    /// Once it is renamed there is nothing left to remove.
    fn drop(&mut self) {
        if self.named {
            fs::remove_file(&self.path).ok();
        }
    }
}

/// A name that no other run uses: in two containers, two runs have one process number.
fn passing_name() -> String {
    let now = SystemTime::now().duration_since(UNIX_EPOCH).map_or(0, |time| time.as_nanos());
    format!(".kz-{}-{now}.tmp", process::id())
}

#[cfg(test)]
mod tests {
    use super::*;

    #[test]
    fn a_file_that_is_written_has_no_name_before_it_is_whole() {
        let folder = std::env::temp_dir().join(passing_name());
        fs::create_dir(&folder).expect("a folder is made");
        let names = || fs::read_dir(&folder).expect("it is there").count();
        let mut beside = Beside::create(&folder.join("plan")).expect("it is created");
        beside.file.write_all(b"half").expect("it is written");
        assert_eq!(names(), usize::from(beside.named));
        beside.put_in_place(&folder.join("plan")).expect("it is renamed");
        assert_eq!(names(), 1);
        assert_eq!(fs::read(folder.join("plan")).expect("it is there"), b"half");
        fs::remove_dir_all(&folder).expect("it is removed");
    }
}
