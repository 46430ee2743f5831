//! Calls for watering windows: a schedule, a span, and lists long enough or not, full of what was there before.

use crate::random::Random;
use crate::window_model::{read, Schedule, Told};
use crate::window_texts::schedule;

pub const WEEK: u64 = 604_800_000;
const DAY: u64 = WEEK / 7;
const MINUTE: u64 = 60_000;
/// No longer answer is listed; spans that have more edges get short lists.
const MOST_EDGES: u128 = 5_000;
/// Places after a lent list, which nobody may touch.
const BEYOND: usize = 3;

/// The three lists, each with some places beyond what is lent of it.
#[derive(Clone, PartialEq)]
pub struct Lists {
    moments: Vec<u64>,
    inputs: Vec<u32>,
    values: Vec<u32>,
}

impl Lists {
    /// So many places to lend of each, filled at random.
    pub fn filled(random: &mut Random, rooms: [usize; 3]) -> Lists {
        let [m, i, v] = rooms.map(|room| room + BEYOND);
        Lists {
            moments: (0..m).map(|_| random.bits()).collect(),
            inputs: (0..i).map(|_| random.bits() as u32).collect(),
            values: (0..v).map(|_| random.bits() as u32).collect(),
        }
    }

    /// What is lent.
    pub fn lent(&mut self) -> (&mut [u64], &mut [u32], &mut [u32]) {
        let [m, i, v] = self.rooms();
        (&mut self.moments[..m], &mut self.inputs[..i], &mut self.values[..v])
    }

    pub fn rooms(&self) -> [usize; 3] {
        [self.moments.len(), self.inputs.len(), self.values.len()].map(|all| all - BEYOND)
    }

    /// The places from the first to the last that any list has, none where a list has ended.
    pub fn places(&self) -> impl Iterator<Item = [Option<u64>; 3]> + '_ {
        let longest = self.moments.len().max(self.inputs.len()).max(self.values.len());
        let small = |list: &[u32], k: usize| list.get(k).copied().map(u64::from);
        (0..longest).map(move |k| [self.moments.get(k).copied(), small(&self.inputs, k), small(&self.values, k)])
    }
}

/// A call.
pub struct Asked {
    pub schedule: Vec<u8>,
    pub from: u64,
    pub to: u64,
    pub lists: Lists,
}

/// A call as the library, the model or the plain version takes it.
pub type Windows = fn(&[u8], u64, u64, &mut [u64], &mut [u32], &mut [u32]) -> Told;

impl Asked {
    /// The result, and the lists afterwards.
    pub fn answer(&self, windows: Windows) -> (Told, Lists) {
        let mut lists = self.lists.clone();
        let (moments, inputs, values) = lists.lent();
        let told = windows(&self.schedule, self.from, self.to, moments, inputs, values);
        (told, lists)
    }
}

// ---- spans

/// A whole minute or beside it: an edge of the schedule, or any; in the first weeks, in the last, or between.
fn aimed(random: &mut Random, week: &[(usize, u32, u32)]) -> u64 {
    let minute = match random.pick_any(week) {
        Some(edge) if !random.once_in(4) => edge.0,
        _ if random.once_in(2) => random.below(8) * 1_440,
        _ => random.below(10_080),
    };
    let number = match random.below(5) {
        0 => u64::MAX / WEEK - random.below(3) as u64,
        1 => random.bits() % (u64::MAX / WEEK),
        _ => random.below(4) as u64,
    };
    let moment = (number * WEEK).saturating_add(minute as u64 * MINUTE);
    match random.below(4) {
        0 => moment.saturating_sub(1),
        1 => moment.saturating_add(1),
        _ => moment,
    }
}

fn moment(random: &mut Random, week: &[(usize, u32, u32)]) -> u64 {
    match random.below(12) {
        0 | 1 => random.below(3) as u64,
        2 => u64::MAX - random.below(3) as u64,
        3 => u64::MAX - random.bits() % (2 * WEEK),
        4 => u64::MAX - random.bits() % DAY,
        5 => random.bits() >> random.below(40),
        6 => random.bits() % (3 * WEEK),
        _ => aimed(random, week),
    }
}

fn length(random: &mut Random) -> u64 {
    match random.below(12) {
        0 => 0,
        1 | 2 => 1,
        3 => *random.pick(&[2, MINUTE - 1, MINUTE, MINUTE + 1, DAY - 1, DAY, DAY + 1, WEEK - 1, WEEK, WEEK + 1]),
        4 | 5 => random.bits() % DAY,
        6..=8 => random.bits() % WEEK,
        9 => random.bits() % (60 * WEEK),
        _ => random.bits() % (4 * WEEK),
    }
}

/// So many weeks that a count of their edges has its low 16 or 32 bits 0.
fn many_weeks(random: &mut Random) -> u64 {
    (WEEK << *random.pick(&[16, 31, 32, 32])) * (1 + random.below(3) as u64)
}

fn span(random: &mut Random, week: &[(usize, u32, u32)]) -> (u64, u64) {
    let from = moment(random, week);
    match random.below(16) {
        0 => (0, u64::MAX),
        1 | 2 => (from, moment(random, week)),
        3 => (from, from.saturating_sub(length(random))),
        4 => (from.saturating_sub(length(random)), from),
        5 => (from, u64::MAX),
        6 => (0, from),
        7 => (from, from.saturating_add(many_weeks(random)).saturating_add(length(random))),
        _ => (from, from.saturating_add(length(random))),
    }
}

/// Lists for so many edges: just long enough, one short in one of them or in all, longer, or empty.
fn rooms(random: &mut Random, edges: u128) -> [usize; 3] {
    if edges > MOST_EDGES {
        let longest = if random.once_in(20) { MOST_EDGES as usize } else { 40 };
        return [0; 3].map(|_| random.below(longest));
    }
    let exact = edges as usize;
    match random.below(8) {
        0 => [0; 3],
        1 => [exact.saturating_sub(1); 3],
        2 | 3 => {
            let mut rooms = [exact; 3].map(|room| room + random.below(2) * random.below(4));
            rooms[random.below(3)] = exact.saturating_sub(1);
            rooms
        }
        4 | 5 => [exact; 3].map(|room| room + random.below(9)),
        _ => [exact; 3],
    }
}

/// The case of this number.
pub fn case(seed: u64) -> Asked {
    let random = &mut Random::new(seed ^ 0x0DD5_EED5);
    let schedule = schedule(random);
    let known = read(&schedule).ok();
    let (from, to) = span(random, known.as_ref().map_or(&[], Schedule::week));
    let edges = known.map_or(random.below(6) as u128, |schedule| schedule.count(from, to));
    let rooms = rooms(random, edges);
    Asked { schedule, from, to, lists: Lists::filled(random, rooms) }
}
