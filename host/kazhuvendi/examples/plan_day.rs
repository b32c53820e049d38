//! Plans the day file that is named, says what the plan comes to and prints its words.

use std::error::Error;
use std::process::ExitCode;
use std::{env, fs};

use kazhuvendi::{Planned, Refusal};

/// So many neighbours of a stop are tried, and so many trials are made at the most.
const NEIGHBOURS: u64 = 50;
const BUDGET: u64 = 1_000_000;

fn main() -> Result<ExitCode, Box<dyn Error>> {
    let name = env::args_os().nth(1).ok_or("give the name of a day file")?;
    match plan(&fs::read(name)?) {
        Ok((planned, words)) => {
            let settled = if planned.settled { "settled" } else { "not settled" };
            let Planned { distance, trials, left_out, .. } = planned;
            println!("distance {distance}, trials {trials}, {settled}, stops left out {left_out}");
            words.iter().for_each(|word| println!("{word:08X}"));
            Ok(ExitCode::SUCCESS)
        }
        Err(refusal) => {
            println!("refused, {}, place {}", refusal.number, refusal.place);
            Ok(ExitCode::FAILURE)
        }
    }
}

/// What the plan comes to, and its words. The day is judged first, to know the room that it needs.
fn plan(bytes: &[u8]) -> Result<(Planned, Vec<u32>), Refusal> {
    let mut day = vec![0; bytes.len() / 4];
    kazhuvendi::read_words(bytes, &mut day)?;
    let room = 5 * kazhuvendi::judge(&day)?.stops;
    let (mut words, mut work) = (vec![0; room], vec![0; room]);
    let planned = kazhuvendi::plan(&day, NEIGHBOURS, BUDGET, &mut words, &mut work)?;
    words.truncate(planned.words);
    Ok((planned, words))
}
