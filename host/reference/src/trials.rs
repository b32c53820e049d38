//! Trials: the neighbours, a plan's trial list, and what a trial makes of a plan. For a trial the
//! plan is taken apart into its vehicles, words are taken out and put in, the touched vehicles are
//! walked again by replaying them from the depot for each question, and the whole plan is put
//! together anew.

use std::iter;

use crate::build::{nearest_open_tip, replay, rested_if_due, with};
use crate::day::Day;
use crate::drafts::Draft;
use crate::plan::Word;
use crate::timetable::place_of;

/// For each stop its neighbours, nearest first.
pub type Neighbours = Vec<Vec<u32>>;

/// One change of a plan.
#[derive(Clone, Copy, Debug, PartialEq, Eq)]
pub enum Trial {
    /// The first stop moved just before the second, on the same vehicle.
    Before(u32, u32),
    /// The first stop moved just after the second, on the same vehicle.
    After(u32, u32),
    /// Two stops of different vehicles interchanged.
    Interchanged(u32, u32),
    /// A tip removed: that of this vehicle at this place between A and E, both from 0.
    Removed(usize, usize),
    /// The tip there replaced by another one.
    Replaced(usize, usize, u32),
}

/// The neighbours of each stop: "the K least t, ties lowest number".
pub fn neighbours(day: &Day, k: usize) -> Neighbours {
    let of_one = |i: u32| {
        let mut near: Vec<(u32, u32)> = stops(day)
            .filter(|j| *j != i && are_compatible(day, i, *j))
            .map(|j| (minutes_between(day, i, j), j))
            .collect();
        near.sort_unstable();
        near.into_iter().take(k).map(|(_, j)| j).collect()
    };
    stops(day).map(of_one).collect()
}

fn stops(day: &Day) -> impl Iterator<Item = u32> {
    1..=day.stops.len() as u32
}

/// "E_j ≤ L_i + V_i + t and E_i + V_i + t ≤ L_j, t from i to j."
fn are_compatible(day: &Day, i: u32, j: u32) -> bool {
    let (from, to) = (day.stops[i as usize - 1], day.stops[j as usize - 1]);
    let later = from.service + minutes_between(day, i, j);
    to.window.opening <= from.window.closing + later
        && from.window.opening + later <= to.window.closing
}

fn minutes_between(day: &Day, i: u32, j: u32) -> u32 {
    let place = |stop| place_of(day, Word::Stop(stop)).expect("a stop has a place");
    day.legs[place(i)][place(j)].minutes
}

/// A plan's trial list, in order: of the stops, then of the tips.
pub fn trial_list<'a>(
    day: &'a Day,
    neighbours: &'a Neighbours,
    plan: &'a Draft,
) -> impl Iterator<Item = Trial> + 'a {
    let routed: Vec<Option<usize>> = stops(day).map(|stop| vehicle_of(plan, stop)).collect();
    let pairs = stops(day).zip(neighbours).flat_map(|(i, near)| near.iter().map(move |j| (i, *j)));
    let of_stops =
        pairs.flat_map(move |(i, j)| match (routed[i as usize - 1], routed[j as usize - 1]) {
            (Some(one), Some(other)) if one == other => {
                vec![Trial::Before(j, i), Trial::After(j, i)]
            }
            (Some(_), Some(_)) => vec![Trial::Interchanged(i, j)],
            _ => Vec::new(),
        });
    of_stops.chain(trials_of_tips(day, plan))
}

/// "Each C in plan order: removed; replaced by every other tip, rising."
fn trials_of_tips<'a>(day: &'a Day, plan: &'a Draft) -> impl Iterator<Item = Trial> + 'a {
    let tips = 1..=day.tips.len() as u32;
    let of_word = move |vehicle, place, word: &Word| match *word {
        Word::Tip(there) => {
            let others = tips.clone().filter(|tip| *tip != there);
            let replaced = others.map(|tip| Trial::Replaced(vehicle, place, tip));
            iter::once(Trial::Removed(vehicle, place)).chain(replaced).collect()
        }
        _ => Vec::new(),
    };
    plan.vehicles.iter().enumerate().flat_map(move |(vehicle, acts)| {
        let of_word = of_word.clone();
        acts.iter().enumerate().flat_map(move |(place, word)| of_word(vehicle, place, word))
    })
}

/// The vehicle that serves a stop, from 0.
fn vehicle_of(plan: &Draft, stop: u32) -> Option<usize> {
    plan.vehicles.iter().position(|acts| acts.contains(&Word::Stop(stop)))
}

/// The plan after a trial, lawful or not, or nothing where the trial fails.
pub fn tried(day: &Day, plan: &Draft, trial: Trial) -> Option<Draft> {
    let mut vehicles = plan.vehicles.clone();
    let holder = |stop| vehicle_of(plan, stop).expect("a trial has routed stops alone");
    let touched = match trial {
        Trial::Before(moved, other) => {
            move_to(&mut vehicles[holder(other)], moved, other, 0);
            vec![holder(other)]
        }
        Trial::After(moved, other) => {
            move_to(&mut vehicles[holder(other)], moved, other, 1);
            vec![holder(other)]
        }
        Trial::Interchanged(one, other) => {
            vehicles.iter_mut().flatten().for_each(|word| interchange(word, one, other));
            vec![holder(one), holder(other)]
        }
        Trial::Removed(vehicle, place) => {
            vehicles[vehicle].remove(place);
            vec![vehicle]
        }
        Trial::Replaced(vehicle, place, tip) => {
            vehicles[vehicle][place] = Word::Tip(tip);
            vec![vehicle]
        }
    };
    for vehicle in touched {
        vehicles[vehicle] = walked_again(day, &vehicles[vehicle])?;
    }
    Some(Draft { vehicles })
}

/// Takes a stop out and puts it before another one, or so many words behind that.
fn move_to(acts: &mut Vec<Word>, moved: u32, other: u32, behind: usize) {
    acts.retain(|word| *word != Word::Stop(moved));
    let place = acts.iter().position(|word| *word == Word::Stop(other));
    acts.insert(place.expect("both are on this vehicle") + behind, Word::Stop(moved));
}

fn interchange(word: &mut Word, one: u32, other: u32) {
    if *word == Word::Stop(one) {
        *word = Word::Stop(other);
    } else if *word == Word::Stop(other) {
        *word = Word::Stop(one);
    }
}

/// What a vehicle does between A and E when it is walked again, or nothing where a tip is needed
/// and none is open.
fn walked_again(day: &Day, acts: &[Word]) -> Option<Vec<Word>> {
    let mut done = Vec::new();
    for &word in acts.iter().filter(|word| **word != Word::Rest).chain(&[Word::Back]) {
        done = rested_if_due(day, &done);
        if matches!(word, Word::Tip(_)) && replay(day, &done).load == 0 {
            continue;
        }
        if needs_tip(day, &done, word) {
            let tip = nearest_open_tip(day, &done)?;
            done = rested_if_due(day, &with(&done, tip));
        }
        done.push(word);
    }
    done.pop();
    Some(done)
}

/// "With load > 0, before a stop that would exceed Q, or E."
fn needs_tip(day: &Day, done: &[Word], next: Word) -> bool {
    let too_much = match next {
        Word::Stop(_) => replay(day, &with(done, next)).load > day.limits.load,
        next => next == Word::Back,
    };
    too_much && replay(day, done).load > 0
}
