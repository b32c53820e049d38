//! Which day a plan was made for. A plan has numbers alone: with the lines of its day in another
//! order it may still be lawful, and sends the vehicles to other customers. So a plan that is
//! written to a file gets a small file beside it, with the fingerprint and the name of its day. The
//! words of the plan stay as every other tool reads them.

use std::ffi::{OsStr, OsString};
use std::fs::{self, File};
use std::io::Write;
use std::path::{Path, PathBuf};

use crate::answer::Failure;
use crate::inputs::GivenDay;

/// What the name of the file beside a plan ends with.
const ENDING: &str = ".made-for";

/// No note is near this size.
const MOST_BYTES: u64 = 1 << 16;

/// The day of a plan.
#[derive(Clone, Debug, PartialEq, Eq)]
pub struct MadeFor {
    fingerprint: u64,
    label: String,
}

impl MadeFor {
    /// The day that is planned.
    pub fn of(day: &GivenDay) -> MadeFor {
        MadeFor { fingerprint: fingerprint(&day.words), label: shown(day.label()) }
    }

    /// Notes it beside a plan that was written there, unless that is a pipe or a device. This does
    /// not wait for the disk, as the plan does: where a crash takes the note, a warning is lost and
    /// no plan. A note that can't be written whole is removed, and with it that of an earlier plan.
    pub fn note(&self, plan: &OsStr) -> Result<(), Failure> {
        let Some(beside) = beside(Path::new(plan)) else { return Ok(()) };
        let line = format!("{:016X} {}\n", self.fingerprint, self.label);
        fs::remove_file(&beside).ok();
        let written =
            File::create_new(&beside).and_then(|mut file| file.write_all(line.as_bytes()));
        written.map_err(|error| {
            fs::remove_file(&beside).ok();
            Failure::System(format!("{} can't be written: {error}", beside.display()))
        })
    }

    /// What is noted beside a plan, if anything is.
    fn noted(plan: &Path) -> Option<MadeFor> {
        let beside = beside(plan)?;
        let there = fs::metadata(&beside).ok()?;
        let text =
            (there.is_file() && there.len() < MOST_BYTES).then(|| fs::read_to_string(beside));
        let text = text?.ok()?;
        let (digits, label) = text.lines().next()?.split_once(' ')?;
        let whole = digits.len() == 16 && digits.bytes().all(|digit| digit.is_ascii_hexdigit());
        let fingerprint = u64::from_str_radix(digits, 16).ok().filter(|_| whole)?;
        Some(MadeFor { fingerprint, label: shown(label) })
    }
}

/// A name on one line, and without what a terminal would obey.
fn shown(name: &str) -> String {
    name.replace(char::is_control, " ")
}

/// What a user has to know who takes a plan for a day that it was not made for.
pub fn warning(plan: &OsStr, day: &GivenDay) -> Option<String> {
    let noted = MadeFor::noted(Path::new(plan))?;
    (noted.fingerprint != fingerprint(&day.words)).then(|| {
        format!(
            "{} was made for another day, or before this one was changed, so its stops may be \
             other customers now: plan this day again, or give the day that it was made for ({})",
            plan.display(),
            noted.label
        )
    })
}

/// The file beside a plan, if that is a file. Where the plan's name is a link, it is beside the
/// file that the link leads to, so that it is found by either name.
fn beside(plan: &Path) -> Option<PathBuf> {
    let plan = fs::canonicalize(plan).ok().filter(|plan| plan.is_file())?;
    let mut name = OsString::from(plan);
    name.push(ENDING);
    Some(name.into())
}

/// FNV-1a of 64 bits over the bytes of the day file.
fn fingerprint(day: &[u32]) -> u64 {
    let bytes = day.iter().flat_map(|word| word.to_le_bytes());
    bytes.fold(0xCBF2_9CE4_8422_2325, |hash: u64, byte| {
        (hash ^ u64::from(byte)).wrapping_mul(0x100_0000_01B3)
    })
}

#[cfg(test)]
mod tests {
    use super::fingerprint;

    /// Both are in the list of hashes that the authors of FNV give.
    #[test]
    fn the_fingerprint_is_fnv_1a_of_64_bits() {
        assert_eq!(fingerprint(&[]), 0xCBF2_9CE4_8422_2325);
        assert_eq!(fingerprint(&[u32::from_le_bytes(*b"foob")]), 0xDD12_0E79_0C25_12AF);
    }
}
