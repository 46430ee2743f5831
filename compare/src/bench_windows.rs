//! The benchmark of the watering windows: spans of one schedule, beside the plain version that sorts intervals.

use crate::bench::row;
use crate::clock::beside;
use crate::plain_windows;
use crate::stack;
use crate::windows::library;
use std::hint::black_box;

const DAY: u64 = 86_400_000;
const YEAR_DAYS: u64 = 365;
const AIM: f64 = 3.0;

/// The date, a Monday, and 100 lines of windows for 14 inputs, 184 edges a week. Inputs 0 to 11: on every weekday one window
/// of 20 to 90 minutes, 84 lines. Input 12: on every weekday two windows that touch, 30 and 40 minutes, 14 lines. Input 13:
/// Sunday's last 40 minutes and Monday's first 30, one window over midnight, 2 lines. By input, then weekday.
fn hundred_lines() -> String {
    let mut lines = Vec::new();
    for input in 0..12 {
        for weekday in 1..=7 {
            let opening = 240 + 95 * input + 7 * weekday;
            lines.push([input, weekday, opening, opening + 20 + (13 * input + 29 * weekday) % 71]);
        }
    }
    for weekday in 1..=7 {
        lines.extend([[12, weekday, 300, 330], [12, weekday, 330, 370]]);
    }
    lines.extend([[13, 7, 1_400, 1_440], [13, 1, 0, 30]]);
    assert_eq!(lines.len(), 100);
    let line = |[input, weekday, opening, closing]: [u32; 4]| format!("{input}\t{weekday}\t{opening}\t{closing}\n");
    "2024\t4\t1\n".to_string() + &lines.into_iter().map(line).collect::<String>()
}

/// The same lines in another order: every 37th.
fn mixed(schedule: &str) -> String {
    let lines: Vec<&str> = schedule.split_inclusive('\n').collect();
    (0..100).fold(lines[0].to_string(), |text, k| text + lines[1 + 37 * k % 100])
}

/// One input open all week, in seven lines: no edge at all.
fn always_open() -> String {
    (1..=7).fold("2024\t4\t1\n".to_string(), |text, weekday| text + &format!("0\t{weekday}\t0\t1440\n"))
}

/// The lists of a call, lent so long.
struct Lent {
    moments: Vec<u64>,
    inputs: Vec<u32>,
    values: Vec<u32>,
}

impl Lent {
    fn of(room: usize) -> Lent {
        Lent { moments: vec![0; room], inputs: vec![0; room], values: vec![0; room] }
    }
}

/// A call by the library and by the plain version, whole; both must give this number and so many edges.
fn times(schedule: &str, from: u64, to: u64, room: usize, wanted: (u32, u64)) -> (f64, f64) {
    let (text, mut ours, mut theirs) = (schedule.as_bytes(), Lent::of(room), Lent::of(room));
    let both = beside([
        &mut || {
            let told = library(black_box(text), from, to, &mut ours.moments, &mut ours.inputs, &mut ours.values);
            assert_eq!((told.number, told.listed), wanted)
        },
        &mut || {
            let Lent { moments, inputs, values } = &mut theirs;
            assert_eq!(plain_windows::windows(black_box(text), from, to, moments, inputs, values), wanted)
        },
    ]);
    assert!(ours.moments == theirs.moments && ours.inputs == theirs.inputs && ours.values == theirs.values);
    both.into()
}

/// The stack of the library's call for the year.
fn stack_used(schedule: &str, room: usize) -> usize {
    let mut lent = Lent::of(room);
    let Lent { moments, inputs, values } = &mut lent;
    stack::used(|| {
        black_box(library(schedule.as_bytes(), 0, YEAR_DAYS * DAY, moments, inputs, values));
    })
}

pub fn windows() {
    println!("\n| watering windows of a schedule of 100 lines, the whole call | library | plain version | ratio | aim |\n|---|---|---|---|---|");
    let (schedule, open) = (hundred_lines(), always_open());
    let (year, room) = (YEAR_DAYS * DAY, 10_000);
    // 52 weeks and a Monday. Input 13 is open over moment 0, so none is lost there.
    let edges = 52 * 184 + 27;
    row(&format!("a year, {edges} edges"), times(&schedule, 0, year, room, (0, edges)), Some(AIM));
    row("a year, the lines in another order", times(&mixed(&schedule), 0, year, room, (0, edges)), None);
    row("a week, 184 edges", times(&schedule, 7 * DAY, 14 * DAY, room, (0, 184)), None);
    row("a day, 26 edges", times(&schedule, DAY, 2 * DAY, room, (0, 26)), None);
    row("a year in lists one too short: 1", times(&schedule, 0, year, edges as usize - 1, (1, 0)), None);
    row("2 to the 64 milliseconds of it: 1", times(&schedule, 0, u64::MAX, room, (1, 0)), None);
    row("2 to the 64 milliseconds of one input always open, 7 lines", times(&open, 0, u64::MAX, 0, (0, 0)), None);
    println!("\nStack used by the call for a year: {} bytes.", stack_used(&schedule, room));
}
