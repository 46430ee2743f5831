//! The benchmark: the library beside a plain Rust queue engine, in one run, printed as a page.

use crate::bench_listings::{
    full, full_board, full_table, grouped, seventy_three_dividing, seventy_three_pieces, sleepers, ticking,
    twelve_dividing, twelve_pieces, waiting,
};
use crate::bench_listings::{COUNTED, FORKS, PRESS, SUMS, TIMERS};
use crate::bench_pages::pages;
use crate::bench_queue::{waiting_writes, Queue};
use crate::bench_windows::windows;
use crate::board::{self, Outputs};
use crate::clock::{beside, longer, ROUNDS};
use crate::layout::WORDS;
use crate::listing::{self, Program};
use crate::plain::Plain;
use crate::stack;
use std::cmp::Reverse;
use std::collections::BinaryHeap;
use std::hint::black_box;

/// The memories of one board.
struct Lent {
    table: Vec<u32>,
    machine: Vec<u32>,
    out: Outputs,
}

fn program(text: &[u8]) -> Program {
    listing::load(text).expect("the benchmark's listings load")
}

/// A board on which a listing was loaded and started.
fn started(text: &[u8]) -> Lent {
    let out = Outputs { numbers: vec![0; 16], values: vec![0; 16] };
    let mut lent = Lent { table: vec![0; WORDS], machine: vec![0; WORDS], out };
    assert_eq!(board::load(text, &mut lent.table).number, 0);
    assert_eq!(board::start(&lent.table, &mut lent.machine, &mut lent.out, 1_000_000).number, 0);
    lent
}

fn instant(lent: &mut Lent, t: u64, inputs: (&[u32], &[u32]), allowance: u32) -> board::Ran {
    board::instant(&lent.table, &mut lent.machine, t, inputs, &mut lent.out, allowance)
}

/// The library and the plain engine on one listing, both started.
struct Pair {
    lent: Lent,
    plain: Plain,
}

impl Pair {
    fn started(text: &str) -> Pair {
        let mut plain = Plain::new(&program(text.as_bytes()));
        assert_eq!(plain.start(1_000_000).number, 0);
        Pair { lent: started(text.as_bytes()), plain }
    }
}

/// Time of a step, of both: the difference of two instants, over the difference of their steps.
fn step_time(text: &str, few: (&[u32], &[u32]), many: (&[u32], &[u32])) -> (f64, f64) {
    let (mut less, mut more) = (Pair::started(text), Pair::started(text));
    let mut moments = [0; 4];
    let mut steps = [0; 4];
    let [t, u, v, w] = &mut moments;
    let [a, b, c, d] = &mut steps;
    let library = |lent: &mut Lent, t: &mut u64, inputs| {
        *t += 1;
        instant(lent, *t, inputs, 1_000_000).steps
    };
    let peer = |plain: &mut Plain, t: &mut u64, inputs: (&[u32], &[u32])| {
        *t += 1;
        plain.instant(*t, inputs.0, inputs.1, 1_000_000).steps
    };
    let times = beside([
        &mut || *a = library(&mut less.lent, t, few),
        &mut || *b = library(&mut more.lent, u, many),
        &mut || *c = peer(&mut less.plain, v, few),
        &mut || *d = peer(&mut more.plain, w, many),
    ]);
    assert_eq!(steps[..2], steps[2..]);
    let between = (steps[1] - steps[0]) as f64;
    ((times[1] - times[0]) / between, (times[3] - times[2]) / between)
}

/// Input 0 says how many turns are made.
fn step_times(text: &str) -> (f64, f64) {
    step_time(text, (&[0], &[100]), (&[0], &[20_000]))
}

/// Every third step wakes: 56 sleepers, less an instant that wakes nobody.
fn waking_times() -> (f64, f64) {
    step_time(&sleepers("R\trr\t0\nW\t0\nS\t1\t1 #1 +\nG\t0\n"), (&[], &[]), (&[0], &[1]))
}

/// A press and its timeout, turn by turn.
fn small_instants() -> (f64, f64) {
    let Pair { mut lent, mut plain } = Pair::started(PRESS);
    let (mut t, mut due) = (0, None);
    let (mut peer_t, mut peer_due) = (0, None);
    let [library, peer] = beside([
        &mut || {
            let inputs: &[u32] = if due.is_none() { &[1] } else { &[] };
            t = due.unwrap_or(t + 1);
            let ran = instant(&mut lent, t, (&[0][..inputs.len()], inputs), 10_000);
            assert_eq!(ran.number, 0);
            due = (ran.due_known == 1).then_some(ran.due);
        },
        &mut || {
            let inputs: &[u32] = if peer_due.is_none() { &[1] } else { &[] };
            peer_t = peer_due.unwrap_or(peer_t + 1);
            let ran = plain.instant(peer_t, &[0][..inputs.len()], inputs, 10_000);
            assert_eq!(ran.number, 0);
            peer_due = ran.due;
        },
    ]);
    (library, peer)
}

/// Scans of both memories, word by word.
fn scans(count: usize, table: &[u32], machine: &[u32]) {
    for memory in [table, machine].repeat(count) {
        let mut zeros = 0;
        for word in memory {
            // SAFETY: a reference to a word of the slice. Volatile: one load a word.
            zeros += (unsafe { std::ptr::read_volatile(word) } == 0) as u32;
        }
        black_box(zeros);
    }
}

/// Calls that have nothing to do, and so many scans.
fn idle_calls(text: &str, count: usize) -> (f64, f64) {
    let mut lent = started(text.as_bytes());
    let (table, machine) = (lent.table.clone(), lent.machine.clone());
    let mut t = 0;
    let mut idle = || {
        t += 1;
        assert_eq!(instant(&mut lent, t, (&[], &[]), 10).number, 0);
    };
    let [library, scanned] = beside([&mut idle, &mut || scans(count, &table, &machine)]);
    (library, scanned)
}

/// Calls refused with 12, after every other question, and three scans.
fn refused_calls(text: &str) -> (f64, f64) {
    let mut lent = started(text.as_bytes());
    let (table, machine) = (lent.table.clone(), lent.machine.clone());
    let mut refused = || assert_eq!(instant(&mut lent, 1, (&[], &[]), 0).number, 12);
    let [library, scanned] = beside([&mut refused, &mut || scans(SCANS, &table, &machine)]);
    (library, scanned)
}

/// Starts, and one scan.
fn starts(text: &str) -> (f64, f64) {
    let Lent { table, mut machine, mut out } = started(text.as_bytes());
    let copy = machine.clone();
    let mut start = || assert_eq!(board::start(&table, &mut machine, &mut out, 10_000).number, 0);
    let [library, scanned] = beside([&mut start, &mut || scans(1, &table, &copy)]);
    (library, scanned)
}

/// Comparisons of two machines that are alike, and one scan of the table and of one of them.
fn comparisons(text: &str) -> (f64, f64) {
    let Lent { table, machine, .. } = started(text.as_bytes());
    let again = machine.clone();
    let mut compare = || assert_eq!(board::alike(&table, &machine, &again).alike, 1);
    let [library, scanned] = beside([&mut compare, &mut || scans(1, &table, &machine)]);
    (library, scanned)
}

/// The time of an instant that wakes so many of the 56 sleepers.
fn waking_instants() -> [(u32, f64); 5] {
    let text = grouped();
    let calls: [&[u32]; 5] = [&[], &[0], &[1], &[2], &[0, 1, 2]];
    let mut steps = [0; 5];
    let mut works = calls.map(|inputs| {
        let mut lent = started(text.as_bytes());
        let mut t = 0;
        move || {
            t += 1;
            instant(&mut lent, t, (inputs, inputs), 10_000).steps
        }
    });
    let [a, b, c, d, e] = &mut works;
    let [s, t, u, v, w] = &mut steps;
    let times = beside([&mut || *s = a(), &mut || *t = b(), &mut || *u = c(), &mut || *v = d(), &mut || *w = e()]);
    std::array::from_fn(|k| (steps[k] / 3, times[k]))
}

/// An instant with nothing due and one in which a write is due, which wakes one routine for three steps.
fn due_instants(locals: usize) -> (f64, f64, f64) {
    let mut works = [false, true].map(|ticks| {
        let mut lent = started(ticking(locals, ticks).as_bytes());
        let mut t = 0;
        move || {
            t += 1;
            assert_eq!(instant(&mut lent, t, (&[], &[]), 10_000).steps, if ticks { 3 } else { 0 });
        }
    });
    let [idle, due] = &mut works;
    let over = longer(idle, due);
    let [idle, due] = beside([idle, due]);
    (idle, due, over)
}

/// What waiting writes add: to an instant of the library in which none is due; and, were there such
/// a queue made anew in each call, to a pass that tests each moment, if it also puts each into the
/// queue; the next moment due is looked at and the queue cleared. And the same with a heap in which
/// no new waiting write could take the place of an old one.
fn waiting_times(writes: usize, each: bool) -> (f64, f64, f64) {
    let [mut without, mut with] = [false, true].map(|put| {
        let mut lent = started(waiting(writes, each, put).as_bytes());
        let mut t = 0;
        move || {
            t += 1;
            assert_eq!(instant(&mut lent, t, (&[], &[]), 10).number, 0);
        }
    });
    let machine = started(waiting(writes, each, true).as_bytes()).machine;
    let mut queue = Queue::new();
    let mut pass = || {
        black_box(waiting_writes(black_box(&machine)).any(|(_, due)| due < 2));
    };
    let mut queued = || {
        for (variable, due) in waiting_writes(black_box(&machine)) {
            if due < 2 {
                return;
            }
            queue.insert(variable, due);
        }
        black_box(queue.heap.first());
        queue.clear();
    };
    let placed = longer(&mut pass, &mut queued);
    let mut room = Vec::with_capacity(1_040);
    let mut heaped = || {
        let mut late = false;
        room.extend(
            waiting_writes(black_box(&machine)).inspect(|&(_, due)| late |= due < 2).map(|(_, due)| Reverse(due)),
        );
        let heap = BinaryHeap::from(std::mem::take(&mut room));
        black_box((late, heap.peek()));
        room = heap.into_vec();
        room.clear();
    };
    let heaped = longer(&mut pass, &mut heaped);
    (longer(&mut without, &mut with), placed, heaped)
}

fn load_times(text: &str) -> (f64, f64) {
    let mut table = vec![0; WORDS];
    let [library, peer] = beside([&mut || assert_eq!(board::load(text.as_bytes(), &mut table).number, 0), &mut || {
        drop(black_box(Plain::new(&program(text.as_bytes()))))
    }]);
    (library / text.len() as f64, peer / text.len() as f64)
}

/// The most stack that each call used over the benchmark's listings.
fn stacks() -> [(&'static str, usize); 4] {
    let (mut load, mut start, mut tick, mut alike) = (0, 0, 0, 0);
    for text in [PRESS, SUMS, FORKS, TIMERS, &full(), &full_board()] {
        let mut lent = started(text.as_bytes());
        let Lent { table, machine, out } = &mut lent;
        load = load.max(stack::used(|| {
            black_box(board::load(text.as_bytes(), table));
        }));
        start = start.max(stack::used(|| {
            black_box(board::start(table, machine, out, 10_000));
        }));
        tick = tick.max(stack::used(|| {
            black_box(board::instant(table, machine, 1, (&[0], &[3]), out, 10_000));
        }));
        assert_eq!(machine[1], 1, "the measured instant ran");
        let again = machine.clone();
        alike = alike.max(stack::used(|| {
            black_box(board::alike(table, machine, &again));
        }));
    }
    [("load", load), ("start", start), ("instant", tick), ("alike", alike)]
}

fn machine_line() -> String {
    let cpu = std::fs::read_to_string("/proc/cpuinfo").unwrap_or_default();
    let model = cpu.lines().find_map(|line| line.strip_prefix("model name")).unwrap_or(": unknown processor");
    let cores = std::thread::available_parallelism().map_or(0, |n| n.get());
    format!("{}, {cores} cores, x86-64 Linux", model.trim_start_matches([' ', '\t', ':']))
}

const LOOP_AIM: f64 = 1.5;
const STEP_AIM: f64 = 1.3;
const FIXED_AIM: f64 = 1.0;
const STACK_AIM: usize = 4_096;
/// Scans beside a call on a small listing or on 64 routines without waiting writes.
const SCANS: usize = 3;

/// One line of a table; `aim` is the largest ratio.
pub fn row(what: &str, (library, peer): (f64, f64), aim: Option<f64>) {
    let ratio = library / peer;
    let verdict = match aim {
        None => "none".to_string(),
        Some(aim) if ratio <= aim => format!("at most {aim}: met"),
        Some(aim) => format!("at most {aim}: missed by {:.0} %", (ratio / aim - 1.0) * 100.0),
    };
    println!("| {what} | {library:.1} | {peer:.1} | {ratio:.2} | {verdict} |");
}

fn steps_and_calls(full: &str) {
    println!("| what | library | plain engine | ratio | aim |\n|---|---|---|---|---|");
    row("a step: a counted loop of `U`, `S` and `G`", step_times(COUNTED), Some(LOOP_AIM));
    row("a step: expressions of 12 pieces", step_times(&twelve_pieces()), Some(STEP_AIM));
    row("a step: expressions of 73 pieces", step_times(&seventy_three_pieces()), Some(STEP_AIM));
    row("a step: expressions of 12 pieces, two of them divisions", step_times(&twelve_dividing()), Some(STEP_AIM));
    row(
        "a step: expressions of 73 pieces, eight of them divisions",
        step_times(&seventy_three_dividing()),
        Some(STEP_AIM),
    );
    row("a step: sums, tests and jumps", step_times(SUMS), Some(LOOP_AIM));
    row("a step: every fourth one puts a waiting write", step_times(TIMERS), Some(LOOP_AIM));
    row("a step: forks, ends and joins", step_times(FORKS), Some(STEP_AIM));
    row("a step: every third one wakes", waking_times(), Some(STEP_AIM));
    row("a small instant, the whole call: a press or its timeout", small_instants(), None);
    row(&format!("loading, a byte of {}; beside the model's loader", full.len()), load_times(full), None);
}

fn fixed(full: &str) {
    println!("\n| fixed cost of a call | library | three scans | ratio | aim |\n|---|---|---|---|---|");
    for (name, text) in [("small listing", PRESS), ("full table, 64 routines", full)] {
        row(&format!("{name}: nothing to do"), idle_calls(text, SCANS), Some(FIXED_AIM));
        row(&format!("{name}: refused with 12, every question asked"), refused_calls(text), Some(FIXED_AIM));
    }
}

fn full_boards() {
    let board = full_board();
    let machine = started(board.as_bytes()).machine;
    let variables = machine[328..WORDS].chunks_exact(184).flat_map(|block| block[8..104].chunks_exact(6));
    assert_eq!(variables.filter(|variable| variable[2..4] != [0, 0]).count(), 1_024);
    println!("\n| a call on a full table | library | one scan | ratio | aim |\n|---|---|---|---|---|");
    row("64 routines, 1024 waiting writes: nothing to do", idle_calls(&board, 1), Some(FIXED_AIM));
    row("64 routines, 1024 waiting writes: the comparison of two such machines", comparisons(&board), None);
    row("the start; main waits at once", starts(&full_table()), None);
}

fn woken() {
    println!("\n| routines woken, of 56 asleep | an instant | over one that wakes nobody, for each |\n|---|---|---|");
    let times = waking_instants();
    for (woken, time) in times {
        let each = if woken == 0 { "".to_string() } else { format!("{:.1}", (time - times[0].1) / f64::from(woken)) };
        println!("| {woken} | {time:.1} | {each} |");
    }
}

fn due_found() {
    println!(
        "\n| a write due, beside 48 sleepers | nothing due | one write due, three steps | over |\n|---|---|---|---|"
    );
    for locals in [0, 14] {
        let (idle, due, over) = due_instants(locals);
        println!("| of {locals} variables each | {idle:.1} | {due:.1} | {over:.1} |");
    }
    println!("\n| waiting writes, of 49 routines with 14 variables each | an instant, over one without them | a queue made anew, one place a variable, over the pass alone | a heap that knows no places |\n|---|---|---|---|");
    for (count, writes, each) in [(1, 1, false), (49, 1, true), (686, 14, true)] {
        let (library, placed, heaped) = waiting_times(writes, each);
        println!("| {count} | {library:.1} | {placed:.1} | {heaped:.1} |");
    }
}

fn stack_used() {
    println!("\n| stack used by | bytes | aim |\n|---|---|---|");
    for (call, bytes) in stacks() {
        let verdict = if bytes < STACK_AIM { "met" } else { "missed" };
        println!("| {call} | {bytes} | below {STACK_AIM}: {verdict} |");
    }
}

/// Runs everything and prints it as a section of a page; `date` is put on it.
pub fn run(date: &str) -> bool {
    println!("One run of `compare/bench`, {date}, on {}.", machine_line());
    println!(
        "Nanoseconds of processor time, the least of {ROUNDS} rounds by turns. The plain engine is a Rust queue engine without"
    );
    println!("proofs and without questions on memory (`compare/src/plain.rs`), on the same listings in the same run. It decodes a");
    println!("listing once, when it is loaded: in the row of loading, and before the first round of all others.");
    println!("A scan: of both memories, a table and a machine, one load a word.\n");
    let full = full();
    steps_and_calls(&full);
    fixed(&full);
    full_boards();
    woken();
    due_found();
    pages();
    windows();
    stack_used();
    true
}
