//! Measures `kz plan` on days of 60, 120 and 240 stops, and prints the tables of docs/INTEGRATE.md:
//! first what each way to plan comes to, then time and memory. The program to be measured is named
//! by the first argument.

use std::io::{self, Error};
use std::path::{Path, PathBuf};
use std::process::{Child, Command, Stdio};
use std::time::Instant;
use std::{env, fs};

use kz::clock::grouped;
use kz::depot;
use kz::neighbours::Neighbours;
use reference::bytes;
use reference::day::Day;
use reference::random::Random;
use reference::trial_days::{day_of_few_long_rounds, day_of_many_short_rounds};

/// Of so many runs the shortest time counts, and the most memory.
const RUNS: usize = 10;
/// So many depots are planned side by side.
const DEPOTS: u64 = 9;
const TIPS: usize = 15;

/// Makes a day of so many stops and tips.
type Maker = fn(&mut Random, usize, usize) -> Day;

const KINDS: [(&str, Maker); 2] =
    [("many short rounds", day_of_many_short_rounds), ("few long rounds", day_of_few_long_rounds)];

fn main() -> io::Result<()> {
    let program = env::args_os().nth(1).ok_or_else(|| Error::other("name the program"))?;
    let folder = env::temp_dir().join(format!("kz-figures-{}", std::process::id()));
    fs::create_dir_all(&folder)?;
    let bench = Bench { program: program.into(), folder };
    compare_ways();
    println!("| Stops | Rounds | Trials until settled | Time | Nine at once | Memory |");
    println!("|---|---|---|---|---|---|");
    for (rounds, maker) in KINDS {
        for stops in [60, 120, 240] {
            println!("| {stops} | {rounds} | {} |", bench.row(maker, stops)?);
        }
    }
    fs::remove_dir_all(&bench.folder)
}

/// K 10, K 50 and growing sets, each until the plan is settled.
const WAYS: [Neighbours; 3] = [Neighbours::Fixed(10), Neighbours::Fixed(50), Neighbours::Growing];

/// Prints what each way comes to, the days of a kind added up.
fn compare_ways() {
    println!("| Days | K 10 | K 50 | K 5-50 | The shorter of the last two | K 5-50 is shorter |");
    println!("|---|---|---|---|---|---|");
    println!("| the sample day | {} |", ways_row(&[depot::sample().words]));
    for (rounds, maker) in KINDS {
        for stops in [60, 120, 240] {
            let day = |seed| maker(&mut Random::new(seed), stops, TIPS).words();
            let days: Vec<Vec<u32>> = (1..=DEPOTS).map(day).collect();
            println!("| nine of {stops} stops, {rounds} | {} |", ways_row(&days));
        }
    }
    println!();
}

fn ways_row(days: &[Vec<u32>]) -> String {
    let (mut distances, mut trials, mut shorter, mut of_days) = ([0; 3], [0; 3], 0, 0);
    for day in days {
        let mut each = [0; 3];
        for (index, way) in WAYS.iter().enumerate() {
            let (mut plan, mut work) = (vec![0; 1_200], vec![0; 1_200]);
            let planned = way.plan(day, u64::MAX, &mut plan, &mut work).expect("it is planned");
            each[index] = planned.distance;
            distances[index] += planned.distance;
            trials[index] += planned.trials;
        }
        shorter += each[1].min(each[2]);
        of_days += usize::from(each[2] < each[1]);
    }
    let way =
        |index: usize| format!("{}, {} trials", grouped(distances[index]), grouped(trials[index]));
    let ways = [way(0), way(1), way(2)].join(" | ");
    format!("{ways} | {} | on {of_days} of {}", grouped(shorter), days.len())
}

struct Bench {
    program: PathBuf,
    folder: PathBuf,
}

impl Bench {
    /// What was measured with days of this kind. The first of them is the one that is planned alone.
    fn row(&self, maker: Maker, stops: usize) -> io::Result<String> {
        let days = (1..=DEPOTS).map(|depot| self.day(maker, stops, depot));
        let days = days.collect::<io::Result<Vec<PathBuf>>>()?;
        let trials = grouped(self.trials(&days[0])?);
        let (mut alone, mut side_by_side, mut memory) = (f64::MAX, f64::MAX, 0);
        for _ in 0..RUNS {
            alone = alone.min(self.seconds(&days[..1])?);
            side_by_side = side_by_side.min(self.seconds(&days)?);
            memory = memory.max(self.kilobytes(&days[0])?);
        }
        let megabytes = memory as f64 / 1024.0;
        Ok(format!("{trials} | {alone:.2} s | {side_by_side:.2} s | {megabytes:.1} MB"))
    }

    /// Writes the day of a depot.
    fn day(&self, maker: Maker, stops: usize, depot: u64) -> io::Result<PathBuf> {
        let file = self.folder.join(format!("{depot}.day"));
        fs::write(&file, bytes::write(&maker(&mut Random::new(depot), stops, TIPS).words()))?;
        Ok(file)
    }

    /// How long all these days take, planned at the same time by a process each.
    fn seconds(&self, days: &[PathBuf]) -> io::Result<f64> {
        let begun = Instant::now();
        let planning: io::Result<Vec<Child>> =
            days.iter().map(|day| self.plan(Command::new(&self.program), day).spawn()).collect();
        for mut child in planning? {
            if !child.wait()?.success() {
                return Err(Error::other("a day is not planned"));
            }
        }
        Ok(begun.elapsed().as_secs_f64())
    }

    /// The most memory that planning had at any time, as GNU time tells it.
    fn kilobytes(&self, day: &Path) -> io::Result<u64> {
        let mut time = Command::new("/usr/bin/time");
        time.arg("-f%M").arg(&self.program);
        let told = self.plan(time, day).stderr(Stdio::piped()).output()?.stderr;
        let told = String::from_utf8_lossy(&told);
        told.trim().parse().map_err(|_| Error::other(format!("/usr/bin/time says {told}")))
    }

    /// The trials of both ways.
    fn trials(&self, day: &Path) -> io::Result<u64> {
        let mut plan = self.plan(Command::new(&self.program), day);
        let told = plan.arg("--json").stdout(Stdio::piped()).output()?.stdout;
        let told = String::from_utf8_lossy(&told);
        let mut trials = 0;
        for way in told.split("\"trials\": ").skip(1) {
            match way.split_once(", ") {
                Some((digits, rest)) if rest.starts_with("\"settled\": true") => {
                    trials += digits.parse::<u64>().map_err(Error::other)?;
                }
                _ => return Err(Error::other(format!("not settled: {told}"))),
            }
        }
        Ok(trials)
    }

    /// The call that plans a day until it is settled.
    fn plan(&self, mut command: Command, day: &Path) -> Command {
        command.arg("plan").arg(day).arg("-o").arg(day.with_extension("plan"));
        command.stdout(Stdio::null());
        command
    }
}
