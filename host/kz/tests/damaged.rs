//! Damaged days and plans: 20,000 of them, through every command that reads them. `make fuzz` goes on
//! for longer.

mod damage;

use std::path::PathBuf;
use std::process::Command;

use damage::{Bench, Kind, Tally};

/// So often one of the calls is made once more, by the program itself.
const BY_PROGRAM: usize = 200;

/// Damages so many files of a kind, and gives back how the calls ended.
fn damaged(kind: Kind, files: usize, seed: u64) -> Tally {
    let name = format!("damaged-{kind:?}-{}", std::process::id());
    let folder = PathBuf::from(env!("CARGO_TARGET_TMPDIR")).join(name);
    let mut bench = Bench::new(&folder, seed);
    for turn in 0..files {
        let call = bench.turn(kind);
        if turn % BY_PROGRAM == 0 {
            let ran = Command::new(env!("CARGO_BIN_EXE_kz")).args(&call).output();
            let status = ran.expect("the program starts").status.code();
            assert!(matches!(status, Some(0..=2)), "kz {call:?} ends with {status:?}");
        }
    }
    std::fs::remove_dir_all(&folder).expect("the scratch files are removed");
    println!("{kind:?}: {}", bench.tally);
    bench.tally
}

#[test]
fn a_damaged_day_in_text_gets_an_answer_or_a_message() {
    let tally = damaged(Kind::Text, 8_000, 1);
    let [answered, refused, unreadable] = [0, 1, 2].map(|status| tally.percent(status));
    assert!(answered > 3 && refused > 3 && unreadable > 30, "{tally}");
}

#[test]
fn a_damaged_day_file_gets_an_answer_or_a_refusal() {
    let tally = damaged(Kind::DayFile, 6_000, 2);
    assert!(tally.percent(0) > 3 && tally.percent(1) > 30, "{tally}");
}

#[test]
fn a_damaged_plan_gets_an_answer_or_a_refusal() {
    let tally = damaged(Kind::Plan, 6_000, 3);
    assert!(tally.percent(0) > 3 && tally.percent(1) > 30, "{tally}");
}
