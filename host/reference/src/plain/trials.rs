//! Planning with trials, the plain path. The neighbours are worked out once a call, and where the
//! vehicles stand once for each plan that is kept. Each trial rebuilds the whole candidate in the
//! working buffer, walking the touched vehicles and copying the others, and then the candidate is
//! checked afresh.

use std::ops::{ControlFlow, Range};

use super::build::{build_accepted, Planned};
use super::check::check_accepted;
use super::fields::Fields;
use super::trip::Trip;
use super::{judge, refuse};
use crate::Refusal;

/// Judges the day, then plans it: writes the plan and zeros behind it, 5n words together. Gives
/// what the plan comes to, or the first of refusals 1 to 5, 13 and 14.
pub fn plan(
    day: &[u32],
    k: u64,
    budget: u64,
    plan: &mut [u32],
    work: &mut [u32],
) -> Result<Planned, Refusal> {
    judge(day)?;
    if !(1..=50).contains(&k) {
        return Err(Refusal { number: 13, place: k });
    }
    plan_accepted(day, &[k], budget, plan, work)
}

/// The same with growing neighbour sets, or the first of refusals 1 to 5 and 14.
pub fn plan_growing(
    day: &[u32],
    budget: u64,
    plan: &mut [u32],
    work: &mut [u32],
) -> Result<Planned, Refusal> {
    judge(day)?;
    plan_accepted(day, &[5, 10, 25, 50], budget, plan, work)
}

/// K rises from list to list, so that the neighbours of each are the first of those of the last.
fn plan_accepted(
    day: &[u32],
    each_k: &[u64],
    budget: u64,
    plan: &mut [u32],
    work: &mut [u32],
) -> Result<Planned, Refusal> {
    let fields = Fields::new(day);
    let needed = 5 * fields.stops;
    if plan.len() < needed || work.len() < needed {
        return refuse(14, needed);
    }
    let planned = build_accepted(day, plan)?;
    let neighbours = neighbours(&fields, each_k[each_k.len() - 1] as usize);
    let (plan, candidate) = (&mut plan[..needed], Candidate { words: work, length: 0 });
    let (vehicles, vehicle_of, order) = (Vec::new(), [None; 256], Vec::new());
    let mut search =
        Search { day, fields, plan, candidate, order, vehicles, vehicle_of, planned, budget };
    search.run(&neighbours, each_k);
    let planned = search.planned;
    plan[planned.words..].fill(0);
    Ok(planned)
}

/// For each stop, from stop 1, the K nearest of the others that can come before or behind it.
fn neighbours(fields: &Fields, k: usize) -> Vec<Vec<usize>> {
    let of_one = |i: usize| {
        let from = fields.stop_window(i);
        let mut near: Vec<(u32, usize)> = Vec::new();
        for j in (1..=fields.stops).filter(|j| *j != i) {
            let minutes = fields.leg(fields.tips + i, fields.tips + j).0;
            let (to, later) = (fields.stop_window(j), fields.service(i) + minutes);
            if to.opening <= from.closing + later && from.opening + later <= to.closing {
                near.push((minutes, j));
            }
        }
        if near.len() > k {
            near.select_nth_unstable(k);
            near.truncate(k);
        }
        near.sort_unstable();
        near.into_iter().map(|(_, j)| j).collect()
    };
    (1..=fields.stops).map(of_one).collect()
}

/// A change of the plan. Stops are given as their words, tips by their index in the plan.
#[derive(Clone, Copy)]
enum Trial {
    Before { moved: u32, other: u32 },
    After { moved: u32, other: u32 },
    Interchange { one: u32, other: u32 },
    Remove { at: usize },
    Replace { at: usize, tip: u32 },
}

/// Why a list is left before its end.
enum Left {
    Kept,
    BudgetUsedUp,
}

struct Search<'a> {
    day: &'a [u32],
    fields: Fields<'a>,
    plan: &'a mut [u32],
    candidate: Candidate<'a>,
    /// The words of a touched vehicle before it is walked.
    order: Vec<u32>,
    vehicles: Vec<Range<usize>>,
    vehicle_of: [Option<usize>; 256],
    planned: Planned,
    budget: u64,
}

impl Search<'_> {
    fn run(&mut self, neighbours: &[Vec<usize>], each_k: &[u64]) {
        loop {
            self.find_vehicles();
            match each_k.iter().try_for_each(|k| self.whole_list(neighbours, *k as usize)) {
                ControlFlow::Continue(()) => {
                    self.planned.settled = true;
                    return;
                }
                ControlFlow::Break(Left::BudgetUsedUp) => return,
                ControlFlow::Break(Left::Kept) => {}
            }
        }
    }

    fn find_vehicles(&mut self) {
        self.vehicles.clear();
        let mut start = 0;
        for (at, word) in self.plan[..self.planned.words].iter().enumerate() {
            match word >> 28 {
                0xA => start = at,
                0xB => self.vehicle_of[(word & 0xFF) as usize] = Some(self.vehicles.len()),
                0xE => self.vehicles.push(start..at + 1),
                _ => {}
            }
        }
    }

    fn whole_list(&mut self, neighbours: &[Vec<usize>], k: usize) -> ControlFlow<Left> {
        for (i, near) in (1..).zip(neighbours) {
            let Some(one) = self.vehicle_of[i] else { continue };
            for &j in near.iter().take(k) {
                let Some(other) = self.vehicle_of[j] else { continue };
                self.trials_of_pair((i, one), (j, other))?;
            }
        }
        for vehicle in 0..self.vehicles.len() {
            for at in self.vehicles[vehicle].clone() {
                if self.plan[at] >> 28 == 0xC {
                    self.trials_of_tip(at, vehicle)?;
                }
            }
        }
        ControlFlow::Continue(())
    }

    /// Of two stops, each with its vehicle.
    fn trials_of_pair(&mut self, i: (usize, usize), j: (usize, usize)) -> ControlFlow<Left> {
        let ((i, one), (j, other)) = (i, j);
        let (i, j) = (0xB << 28 | i as u32, 0xB << 28 | j as u32);
        if one == other {
            self.attempt(Trial::Before { moved: j, other: i }, [one, one])?;
            self.attempt(Trial::After { moved: j, other: i }, [one, one])
        } else {
            self.attempt(Trial::Interchange { one: i, other: j }, [one, other])
        }
    }

    fn trials_of_tip(&mut self, at: usize, vehicle: usize) -> ControlFlow<Left> {
        let there = self.plan[at];
        self.attempt(Trial::Remove { at }, [vehicle, vehicle])?;
        for tip in (1..=self.fields.tips).map(|tip| 0xC << 28 | tip as u32) {
            if tip != there {
                self.attempt(Trial::Replace { at, tip }, [vehicle, vehicle])?;
            }
        }
        ControlFlow::Continue(())
    }

    fn attempt(&mut self, trial: Trial, touched: [usize; 2]) -> ControlFlow<Left> {
        if self.planned.trials == self.budget {
            return ControlFlow::Break(Left::BudgetUsedUp);
        }
        self.planned.trials += 1;
        if !self.rebuild(trial, touched) {
            return ControlFlow::Continue(());
        }
        let words = self.candidate.length;
        match check_accepted(self.day, &self.candidate.words[..words]) {
            Ok(totals) if totals.distance < self.planned.distance => {
                self.plan[..words].copy_from_slice(&self.candidate.words[..words]);
                (self.planned.distance, self.planned.words) = (totals.distance, words);
                ControlFlow::Break(Left::Kept)
            }
            _ => ControlFlow::Continue(()),
        }
    }

    /// False where the trial fails.
    fn rebuild(&mut self, trial: Trial, touched: [usize; 2]) -> bool {
        self.candidate.length = 0;
        let mut end = 0;
        for (vehicle, place) in self.vehicles.iter().enumerate() {
            if touched.contains(&vehicle) {
                self.order.clear();
                changed(self.plan, place.clone(), trial, &mut self.order);
                if self.candidate.walk(&self.fields, &self.order).is_none() {
                    return false;
                }
            } else {
                self.candidate.copy(&self.plan[place.clone()]);
            }
            end = place.end;
        }
        self.candidate.copy(&self.plan[end..self.planned.words]);
        true
    }
}

/// The words of a vehicle with the trial's change and without its rest.
fn changed(plan: &[u32], vehicle: Range<usize>, trial: Trial, order: &mut Vec<u32>) {
    for at in vehicle {
        let word = plan[at];
        match trial {
            _ if word >> 28 == 0xD => {}
            Trial::Before { moved, .. } | Trial::After { moved, .. } if word == moved => {}
            Trial::Before { moved, other } if word == other => order.extend([moved, other]),
            Trial::After { moved, other } if word == other => order.extend([other, moved]),
            Trial::Interchange { one, other } if word == one => order.push(other),
            Trial::Interchange { one, other } if word == other => order.push(one),
            Trial::Remove { at: removed } if at == removed => {}
            Trial::Replace { at: replaced, tip } if at == replaced => order.push(tip),
            _ => order.push(word),
        }
    }
}

/// The plan that a trial makes.
struct Candidate<'a> {
    words: &'a mut [u32],
    length: usize,
}

impl Candidate<'_> {
    fn write(&mut self, word: u32) {
        self.words[self.length] = word;
        self.length += 1;
    }

    fn copy(&mut self, words: &[u32]) {
        self.words[self.length..self.length + words.len()].copy_from_slice(words);
        self.length += words.len();
    }

    /// Writes a vehicle, A to E, with its rest and the tips that it needs more. Nothing where none
    /// is open.
    fn walk(&mut self, fields: &Fields, order: &[u32]) -> Option<()> {
        let (mut trip, mut load) = (fields.leaving(), 0);
        self.write(order[0]);
        for &word in &order[1..] {
            trip = self.rest(fields, trip);
            let number = (word & 0xFF) as usize;
            match word >> 28 {
                0xB => {
                    let quantity = fields.quantity(number);
                    if load > 0 && load + quantity > fields.load {
                        (trip, load) = (self.tip(fields, trip)?, 0);
                    }
                    (trip, load) = (fields.served(trip, number), load + quantity);
                }
                0xC if load == 0 => continue,
                0xC => (trip, load) = (fields.tipped(trip, number), 0),
                _ if load > 0 => (trip, load) = (self.tip(fields, trip)?, 0),
                _ => {}
            }
            self.write(word);
        }
        Some(())
    }

    fn rest(&mut self, fields: &Fields, trip: Trip) -> Trip {
        let rested = fields.rest_if_due(trip);
        if rested.rested && !trip.rested {
            self.write(0xD << 28);
        }
        rested
    }

    /// Inserts the nearest open tip, and the rest behind it where it is due.
    fn tip(&mut self, fields: &Fields, trip: Trip) -> Option<Trip> {
        let tip = fields.nearest_tip(trip)?;
        self.write(0xC << 28 | tip as u32);
        Some(self.rest(fields, fields.tipped(trip, tip)))
    }
}
