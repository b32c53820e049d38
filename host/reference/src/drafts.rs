//! Lawful plans made up at random, and other lawful plans made from them.

use std::ops::Range;

use crate::check::vehicle_is_lawful;
use crate::day::Day;
use crate::plan::{self, Word};
use crate::random::Random;

/// A plan that is being made up: what each vehicle does between its A and its E. The stops that no
/// vehicle serves are left out.
#[derive(Clone, Debug, Default, PartialEq, Eq)]
pub struct Draft {
    pub(crate) vehicles: Vec<Vec<Word>>,
}

impl Draft {
    /// A plan that has the form of one, taken apart.
    pub fn of(day: &Day, words: &[u32]) -> Draft {
        let plan = plan::read(day, words);
        let acts = |vehicle: &Range<usize>| plan.words[vehicle.start + 1..vehicle.end - 1].to_vec();
        Draft { vehicles: plan.vehicles.iter().map(acts).collect() }
    }

    /// The words of the plan.
    pub fn words(&self, day: &Day) -> Vec<u32> {
        let mut words = Vec::new();
        for (count, acts) in (1..).zip(&self.vehicles) {
            words.extend(whole(count, acts).iter().map(|word| word.word()));
        }
        let left_out = (1..=day.stops.len() as u32).filter(|stop| !self.serves(*stop));
        words.extend(left_out.map(|stop| Word::LeftOut(stop).word()));
        words
    }

    /// The tip that a vehicle visits at this place between A and E, both from 0.
    pub fn tip(&self, vehicle: usize, place: usize) -> Option<u32> {
        match self.vehicles[vehicle][place] {
            Word::Tip(tip) => Some(tip),
            _ => None,
        }
    }

    fn serves(&self, stop: u32) -> bool {
        self.vehicles.iter().flatten().any(|word| *word == Word::Stop(stop))
    }
}

fn whole(count: u32, acts: &[Word]) -> Vec<Word> {
    let mut words = vec![Word::Vehicle(count)];
    words.extend_from_slice(acts);
    words.push(Word::Back);
    words
}

fn is_lawful(day: &Day, acts: &[Word]) -> bool {
    vehicle_is_lawful(day, &whole(1, acts))
}

/// A lawful plan. Each stop in turn joins a vehicle where that stays lawful, else it gets a fresh
/// one, else it is left out. Some are left out or get a fresh vehicle for no reason, how many of
/// them differs from plan to plan.
pub fn random_draft(random: &mut Random, day: &Day) -> Draft {
    let passed_over = random.one_of(&[3, 20, 1_000, 1_000]);
    let own_vehicle = random.one_of(&[2, 8, 30]);
    let mut draft = Draft::default();
    for stop in shuffled_stops(random, day) {
        if random.once_in(passed_over) {
            continue;
        }
        if random.once_in(own_vehicle) || !join(random, day, stop, &mut draft) {
            draft.vehicles.extend(fresh_vehicle(random, day, stop));
        }
    }
    other_ways(random, day, &draft)
}

fn shuffled_stops(random: &mut Random, day: &Day) -> Vec<u32> {
    let mut stops: Vec<u32> = (1..=day.stops.len() as u32).collect();
    for end in (1..stops.len()).rev() {
        stops.swap(end, random.below(end + 1));
    }
    stops
}

/// Tries the newest vehicle, then any, in some ways each.
fn join(random: &mut Random, day: &Day, stop: u32, draft: &mut Draft) -> bool {
    if draft.vehicles.is_empty() {
        return false;
    }
    let newest = draft.vehicles.len() - 1;
    let any = random.below(draft.vehicles.len());
    for vehicle in [newest, newest, newest, newest, any, any] {
        let acts = with_stop(random, day, &draft.vehicles[vehicle], stop);
        if is_lawful(day, &acts) {
            draft.vehicles[vehicle] = acts;
            return true;
        }
    }
    false
}

/// The stop somewhere among what the vehicle does, often with a tip before or behind it.
fn with_stop(random: &mut Random, day: &Day, acts: &[Word], stop: u32) -> Vec<Word> {
    let mut acts = acts.to_vec();
    let at = random.below(acts.len() + 1);
    acts.insert(at, Word::Stop(stop));
    match random.below(4) {
        0 => acts.insert(at + 1, random_tip(random, day)),
        1 => acts.insert(at, random_tip(random, day)),
        2 => insert_rest(random, &mut acts),
        _ => {}
    }
    acts
}

fn fresh_vehicle(random: &mut Random, day: &Day, stop: u32) -> Option<Vec<Word>> {
    let mut attempts = (0..6).map(|_| {
        let mut acts = vec![Word::Stop(stop)];
        if day.stops[stop as usize - 1].quantity > 0 || random.once_in(4) {
            acts.push(random_tip(random, day));
        }
        if random.once_in(2) {
            insert_rest(random, &mut acts);
        }
        acts
    });
    attempts.find(|acts| is_lawful(day, acts))
}

fn random_tip(random: &mut Random, day: &Day) -> Word {
    Word::Tip(1 + random.below(day.tips.len()) as u32)
}

fn insert_rest(random: &mut Random, acts: &mut Vec<Word>) {
    let at = random.below(acts.len() + 1);
    acts.insert(at, Word::Rest);
}

/// A lawful plan with the same rounds, whose tips and rests are others as far as that is lawful.
pub fn other_ways(random: &mut Random, day: &Day, draft: &Draft) -> Draft {
    let mut draft = draft.clone();
    for acts in &mut draft.vehicles {
        for _ in 0..random.below(6) {
            let changed = other_way(random, day, acts);
            if is_lawful(day, &changed) {
                *acts = changed;
            }
        }
    }
    draft
}

/// A tip or a rest more, less, or elsewhere.
fn other_way(random: &mut Random, day: &Day, acts: &[Word]) -> Vec<Word> {
    let mut acts = acts.to_vec();
    let at = random.below(acts.len());
    match (random.below(3), acts[at]) {
        (0, Word::Tip(_)) => acts[at] = random_tip(random, day),
        (_, Word::Tip(_) | Word::Rest) => {
            acts.remove(at);
        }
        (0, _) => insert_rest(random, &mut acts),
        _ => acts.insert(at, random_tip(random, day)),
    }
    acts
}

/// A lawful plan with other rounds, or the same one where none was found in some attempts.
pub fn other_rounds(random: &mut Random, day: &Day, draft: &Draft) -> Draft {
    for _ in 0..8 {
        let mut changed = draft.clone();
        match random.below(4) {
            0 => exchange_stops(random, day, &mut changed),
            1 => exchange_vehicles(random, &mut changed),
            2 => divide_vehicle(random, &mut changed),
            _ => leave_out(random, &mut changed),
        }
        if changed != *draft && changed.vehicles.iter().all(|acts| is_lawful(day, acts)) {
            return changed;
        }
    }
    draft.clone()
}

/// Two stops stand for one another; one that was left out may come in so.
fn exchange_stops(random: &mut Random, day: &Day, draft: &mut Draft) {
    let stops = shuffled_stops(random, day);
    let [here, there, ..] = stops[..] else { return };
    for word in draft.vehicles.iter_mut().flatten() {
        if *word == Word::Stop(here) {
            *word = Word::Stop(there);
        } else if *word == Word::Stop(there) {
            *word = Word::Stop(here);
        }
    }
}

fn exchange_vehicles(random: &mut Random, draft: &mut Draft) {
    let count = draft.vehicles.len();
    if count > 0 {
        draft.vehicles.swap(random.below(count), random.below(count));
    }
}

/// A vehicle does the first part of its words, and a vehicle behind it the others.
fn divide_vehicle(random: &mut Random, draft: &mut Draft) {
    if draft.vehicles.is_empty() {
        return;
    }
    let vehicle = random.below(draft.vehicles.len());
    let acts = &mut draft.vehicles[vehicle];
    let others = acts.split_off(random.below(acts.len()));
    draft.vehicles.insert(vehicle + 1, others);
}

/// A stop of a vehicle is left out, and the vehicle too where it was the only one.
fn leave_out(random: &mut Random, draft: &mut Draft) {
    if draft.vehicles.is_empty() {
        return;
    }
    let vehicle = random.below(draft.vehicles.len());
    let acts = &mut draft.vehicles[vehicle];
    let is_stop = |word: &Word| matches!(word, Word::Stop(_));
    let stops: Vec<usize> = (0..acts.len()).filter(|at| is_stop(&acts[*at])).collect();
    acts.remove(random.one_of(&stops));
    if stops.len() == 1 {
        draft.vehicles.remove(vehicle);
    }
}
