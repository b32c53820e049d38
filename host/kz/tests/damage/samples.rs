//! The days and plans that are damaged: sound ones, in every form.

use std::fs;
use std::path::{Path, PathBuf};

use kz::answer::Product;
use kz::{harbour, words};
use reference::build_days::build_day;
use reference::damage::damage;
use reference::day::{self, Day};
use reference::plan_damage::damage_plan;
use reference::random::Random;

use super::{bytes, run, Kind};

const DEPOT: &str = include_str!(concat!(env!("CARGO_MANIFEST_DIR"), "/../../examples/depot.txt"));

/// A day and a plan of it.
pub struct Sample {
    day: Day,
    texts: Vec<String>,
    plan: Vec<u32>,
    days: Vec<PathBuf>,
    plans: Vec<PathBuf>,
}

/// Samples of few stops, for commands take less than a millisecond on these, and a whole depot.
/// Their sound files go into the folder.
pub fn write(folder: &Path) -> Vec<Sample> {
    let mut random = Random::new(1);
    let sizes = [(0, 1), (1, 1), (2, 1), (5, 3), (8, 2)];
    let days = sizes.map(|(stops, tips)| words::raw(&build_day(&mut random, stops, tips).words()));
    let instances = [0, 2, 6].map(|stops| instance_of(stops).into_bytes());
    let depots = [3, 7, usize::MAX].map(|stops| depot_of(stops).into_bytes());
    let all = days.iter().chain(&instances).chain(&depots).enumerate();
    all.map(|(index, bytes)| Sample::of(folder, &index.to_string(), bytes)).collect()
}

/// The sample depot with so many of its stops.
fn depot_of(stops: usize) -> String {
    let (mut text, mut seen) = (String::new(), 0);
    for line in DEPOT.lines() {
        seen += usize::from(line.starts_with("stop "));
        if seen <= stops || !line.starts_with("stop ") {
            text += &format!("{line}\n");
        }
    }
    text
}

/// The sample instance with so many of its customers.
fn instance_of(stops: usize) -> String {
    const BEFORE_CUSTOMERS: usize = 10;
    harbour::sample_text().split_inclusive('\n').take(BEFORE_CUSTOMERS + stops).collect()
}

/// One of the samples; the last, which is large, is rare.
pub fn choose<'a>(random: &mut Random, samples: &'a [Sample]) -> &'a Sample {
    let small = samples.len() - 1;
    &samples[if random.once_in(200) { small } else { random.below(small) }]
}

impl Sample {
    /// The sample whose day is in these bytes.
    fn of(folder: &Path, name: &str, bytes: &[u8]) -> Sample {
        let file = |form: &str, content: &[u8]| {
            let path = folder.join(format!("{name}.{form}"));
            fs::write(&path, content).expect("a scratch file is written");
            path
        };
        let given = file("given", bytes);
        let Some(Product::Words(words)) = product("pack", &given) else { panic!("no words") };
        let Some(Product::Text(matrix)) = product("unpack", &given) else { panic!("no text") };
        let plan = plan_of(&words);
        let [raw, lines] = [words::raw(&words), words::lines(&words).into_bytes()];
        let (raw, lines) = (file("raw", &raw), file("hex", &lines));
        let days = vec![given, raw, lines, file("txt", matrix.as_bytes())];
        let [raw, lines] = [words::raw(&plan), words::lines(&plan).into_bytes()];
        let plans = vec![file("plan", &raw), file("plan.hex", &lines)];
        let given = String::from_utf8(bytes.to_vec());
        let texts = [Some(matrix), given.ok()].into_iter().flatten().collect();
        let day = day::read(&words).expect("the day is accepted");
        Sample { day, texts, plan, days, plans }
    }

    /// A sound file of the day.
    pub fn day(&self, random: &mut Random) -> &Path {
        &self.days[random.below(self.days.len())]
    }

    /// A sound file of the plan.
    pub fn plan(&self, random: &mut Random) -> &Path {
        &self.plans[random.below(self.plans.len())]
    }

    /// The content of a file of this kind, damaged in one to three ways.
    pub fn damaged(&self, random: &mut Random, kind: Kind) -> Vec<u8> {
        let times = 1 + random.below(3);
        if kind == Kind::Text {
            let mut text = self.texts[random.below(self.texts.len())].clone().into_bytes();
            (0..times).for_each(|_| bytes::damage(random, &mut text, bytes::Piece::Line));
            return text;
        }
        let mut words = if kind == Kind::Plan { self.plan.clone() } else { self.day.words() };
        let in_words = random.below(times + 1);
        for _ in 0..in_words {
            match kind {
                Kind::Plan => damage_plan(random, &self.day, &mut words),
                _ if words.is_empty() => {}
                _ => damage(random, &mut words),
            }
        }
        let (mut content, piece) = match random.below(2) {
            0 => (words::raw(&words), bytes::Piece::Word),
            _ => (words::lines(&words).into_bytes(), bytes::Piece::Line),
        };
        (in_words..times).for_each(|_| bytes::damage(random, &mut content, piece));
        content
    }
}

/// The greedy plan of a day.
fn plan_of(day: &[u32]) -> Vec<u32> {
    let stops = kazhuvendi::judge(day).expect("the day is accepted").stops;
    let mut plan = vec![0; 5 * stops];
    let built = kazhuvendi::build(day, &mut plan).expect("it is built");
    plan.truncate(built.words);
    plan
}

fn product(command: &str, file: &Path) -> Option<Product> {
    run(&[command.into(), file.into()]).expect("a sample is sound").product
}
