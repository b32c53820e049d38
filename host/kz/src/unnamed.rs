//! Files that have no name yet. Linux removes such a file by itself where the program ends before it
//! gets one, so nothing is left of it, whatever ends the program.

#![allow(unsafe_code)]

use std::ffi::{c_char, c_int, CString};
use std::fs::{File, OpenOptions};
use std::io;
use std::os::fd::AsRawFd;
use std::os::unix::ffi::OsStrExt;
use std::os::unix::fs::OpenOptionsExt;
use std::path::Path;

/// Linux's numbers on x86-64.
const O_TMPFILE: c_int = 0o20_200_000;
const AT_FDCWD: c_int = -100;
const AT_SYMLINK_FOLLOW: c_int = 0x400;

/// Where the system shows a program its open files, which is how such a file gets its name.
const OPEN_FILES: &str = "/proc/self/fd";

extern "C" {
    fn linkat(
        old_folder: c_int,
        old: *const c_char,
        new_folder: c_int,
        new: *const c_char,
        flags: c_int,
    ) -> c_int;
}

/// A file that belongs to this folder, where the file system has such files.
pub fn create(folder: &Path) -> io::Result<File> {
    Path::new(OPEN_FILES).metadata()?;
    OpenOptions::new().write(true).custom_flags(O_TMPFILE).open(folder)
}

/// Gives it a name that no file of its folder has.
pub fn name(file: &File, path: &Path) -> io::Result<()> {
    let old = CString::new(format!("{OPEN_FILES}/{}", file.as_raw_fd()))?;
    let new = CString::new(path.as_os_str().as_bytes())?;
    // SAFETY: `linkat` is the C library's. Both names end in a zero and live until it is done.
    let status =
        unsafe { linkat(AT_FDCWD, old.as_ptr(), AT_FDCWD, new.as_ptr(), AT_SYMLINK_FOLLOW) };
    if status == 0 {
        Ok(())
    } else {
        Err(io::Error::last_os_error())
    }
}
