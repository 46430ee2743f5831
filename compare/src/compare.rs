//! The comparison: the model against the library on random cases, with counts by number. Every
//! answer is compared whole: number, place, steps, outputs, due moment, and each lent memory.

use crate::board::{self, expected, Compared, Loaded, Outputs, Ran, Seen};
use crate::calls::{answer, random_call, Call};
use crate::damage::{change_piece, change_words, stopped_form};
use crate::layout::{machine_standing, same_state, table_program, table_words, Standing, WORDS};
use crate::listing::{self, Program};
use crate::presses::{Met, Presses};
use crate::random::Random;
use crate::texts;
use crate::walk::{Answer, Machine, NUMBERS};

/// How often each number was given, by kind of call.
#[derive(Default)]
pub struct Counts {
    pub load: [u64; NUMBERS],
    pub start: [u64; NUMBERS],
    pub instant: [u64; NUMBERS],
    pub alike: [u64; NUMBERS],
    pub look: [u64; NUMBERS],
    /// Calls on a table or machine damaged on purpose: those that still passed 6 and 7.
    pub damaged: u64,
    pub damaged_passed: u64,
    /// Inputs that met waiting writes, in calls on machines followed from their start.
    pub presses: Presses,
}

impl Counts {
    pub fn answers(&self) -> u64 {
        [self.load, self.start, self.instant, self.alike, self.look].iter().flatten().sum()
    }
}

/// What a call changes.
#[derive(Clone, PartialEq)]
struct Memory {
    machine: Vec<u32>,
    out: Outputs,
}

/// A machine in words, and in the model once it has been started.
struct Side {
    memory: Memory,
    model: Option<Machine>,
}

type Difference = String;

/// One case: a listing and, if it loads, some calls on its table.
pub fn case(seed: u64, counts: &mut Counts) -> Result<(), Difference> {
    let random = &mut Random::new(seed);
    let text = texts::listing(random);
    let shown = |difference| format!("{difference}\nlisting:\n{}", String::from_utf8_lossy(&text));
    let Some((program, table)) = load(random, &text, counts).map_err(shown)? else { return Ok(()) };
    let mut sides = [side(random), side(random)];
    for k in 0..2 + random.below(14) {
        let which = if k == 0 { 0 } else { random.below(3).min(1) };
        match random.below(16) {
            0 => compare_sides(random, &table, &sides, counts),
            1 => damaged(random, &table, &program, &sides[which], counts),
            2 => short(random, &table, &sides[which], counts),
            _ => tracked(random, &table, &program, &mut sides[which], counts),
        }
        .map_err(shown)?;
    }
    Ok(())
}

fn junk(random: &mut Random, length: usize) -> Vec<u32> {
    let word = random.bits() as u32;
    (0..length as u32).map(|i| word.wrapping_mul(i | 1)).collect()
}

fn side(random: &mut Random) -> Side {
    let length = WORDS + random.below(3);
    let machine = if random.once_in(3) { vec![0; length] } else { junk(random, length) };
    let (numbers, values) = (16 + random.below(3), 16 + random.below(3));
    let out = Outputs { numbers: junk(random, numbers), values: junk(random, values) };
    Side { memory: Memory { machine, out }, model: None }
}

// ---- loading

fn load(random: &mut Random, text: &[u8], counts: &mut Counts) -> Result<Option<(Program, Vec<u32>)>, Difference> {
    let long = !random.once_in(50);
    let length = if long { WORDS + random.below(3) } else { random.below(WORDS) };
    let before = junk(random, length);
    let mut table = before.clone();
    let got = board::load(text, &mut table);
    let model = listing::load(text);
    let want = match &model {
        _ if !long => Loaded { number: 1, place: 0 },
        Ok(_) => Loaded { number: 0, place: 0 },
        Err(refusal) => Loaded { number: refusal.number, place: refusal.place },
    };
    if got != want {
        return Err(format!("load: {got:?}, the model has {want:?}"));
    }
    counts.load[want.number as usize] += 1;
    match model {
        Ok(program) if long => {
            if table[..WORDS] != table_words(&program) {
                return Err("load: the table is not the listing's by docs/LAYOUT.md".to_string());
            }
            if table[WORDS..] != before[WORDS..] {
                return Err("load: words past the table were touched".to_string());
            }
            Ok(Some((program, table)))
        }
        _ if table != before => Err("load: refused, yet the table was touched".to_string()),
        _ => Ok(None),
    }
}

// ---- calls

/// A call on a machine that the model has followed from its start.
fn tracked(
    random: &mut Random,
    table: &[u32],
    program: &Program,
    side: &mut Side,
    counts: &mut Counts,
) -> Result<(), Difference> {
    let call = random_call(random, program, side.model.as_ref());
    let mut model = match side.model.take() {
        Some(machine) => Some(machine),
        None => standing(&side.memory.machine, program),
    };
    let met = Met::new(&call, program.inputs, model.as_ref());
    let want = answer(&call, Some(program), &mut model);
    let mut after = side.memory.clone();
    let got = made(table, &mut after, &call);
    judge(&call, &side.memory, &after, got, &want, program, model.as_ref())?;
    counted(&call, &want, counts);
    counts.presses.count(&call, &met, &want, model.as_ref());
    side.memory = after;
    side.model = model;
    Ok(())
}

/// What machine words stand for, by docs/LAYOUT.md.
fn standing(words: &[u32], program: &Program) -> Option<Machine> {
    match machine_standing(words, program)? {
        Standing::Running(machine) => Some(machine),
        Standing::Stopped => Some(Machine {
            moment: 0,
            main: None,
            cells: Default::default(),
            next_variable: 0,
            stopped: Some(words[0]),
        }),
    }
}

fn made(table: &[u32], memory: &mut Memory, call: &Call) -> Ran {
    match call.t {
        None => board::start(table, &mut memory.machine, &mut memory.out, call.allowance),
        Some(t) => {
            let inputs = (&call.numbers[..], &call.values[..]);
            board::instant(table, &mut memory.machine, t, inputs, &mut memory.out, call.allowance)
        }
    }
}

fn judge(
    call: &Call,
    before: &Memory,
    after: &Memory,
    got: Ran,
    want: &Answer,
    program: &Program,
    model: Option<&Machine>,
) -> Result<(), Difference> {
    let fail = |what: &str| Err(format!("{call:?}: {what}; answered {got:?}, the model has {want:?}"));
    if got != expected(want) {
        return fail("another answer");
    }
    match want.number {
        0 => {
            if !outputs_are(want, &before.out, &after.out) {
                return fail("the output lists differ");
            }
            if after.machine[WORDS..] != before.machine[WORDS..] {
                return fail("words past the machine were touched");
            }
            match (machine_standing(&after.machine, program), model) {
                (Some(Standing::Running(read)), Some(model)) if same_state(&read, model, program) => Ok(()),
                (Some(_), _) => fail("the machine's words stand for another state"),
                (None, _) => fail("the machine's words would not pass question 7 by docs/LAYOUT.md"),
            }
        }
        1..=12 if after != before => fail("refused, yet memory was touched"),
        1..=12 => Ok(()),
        _ => {
            let stopped = after.machine[0] == want.number && after.machine[1..WORDS].iter().all(|&w| w == 0);
            if !stopped || after.machine[WORDS..] != before.machine[WORDS..] || after.out != before.out {
                return fail("the memory is not that of a stop");
            }
            Ok(())
        }
    }
}

fn outputs_are(want: &Answer, before: &Outputs, after: &Outputs) -> bool {
    let mut expected = before.clone();
    for (k, &(number, value)) in want.outputs.iter().enumerate() {
        expected.numbers[k] = number;
        expected.values[k] = value as u32;
    }
    expected == *after
}

fn counted(call: &Call, want: &Answer, counts: &mut Counts) {
    let by_number = if call.t.is_none() { &mut counts.start } else { &mut counts.instant };
    by_number[want.number as usize] += 1;
}

// ---- lent memories that are too short

fn short(random: &mut Random, table: &[u32], side: &Side, counts: &mut Counts) -> Result<(), Difference> {
    let mut call =
        Call { t: Some(random.bits()), numbers: vec![0], values: vec![0], allowance: random.below(3) as u32 };
    let mut memory = side.memory.clone();
    let mut table = table.to_vec();
    let length = random.below(WORDS) * random.below(2);
    match random.below(6) {
        0 => table.truncate(WORDS - 1 - length),
        1 => memory.machine.truncate(WORDS - 1 - length),
        2 => memory.out.numbers.truncate(15 - length % 16),
        3 => memory.out.values.truncate(15 - length % 16),
        4 => call.numbers.push(1),
        _ => call.values.clear(),
    }
    if call.numbers.len() == call.values.len() && random.once_in(2) {
        call.t = None;
    }
    let mut after = memory.clone();
    let got = made(&table, &mut after, &call);
    if got != expected(&Answer::refused(1)) || after != memory {
        return Err(format!("{call:?} on short memory: {got:?}"));
    }
    counted(&call, &Answer::refused(1), counts);
    Ok(())
}

// ---- words damaged on purpose

/// A call on a copy with words changed. docs/LAYOUT.md says whether 6 and 7 still pass, and what
/// the words then stand for.
fn damaged(
    random: &mut Random,
    table: &[u32],
    program: &Program,
    side: &Side,
    counts: &mut Counts,
) -> Result<(), Difference> {
    let mut table = table.to_vec();
    let mut before = side.memory.clone();
    match random.below(6) {
        0 => change_words(random, &mut table),
        1 => change_piece(random, &mut table),
        2 => stopped_form(random, &mut before.machine),
        _ => change_words(random, &mut before.machine),
    }
    let call = random_call(random, program, side.model.as_ref());
    let changed = table_program(&table);
    let mut model = changed.as_ref().and_then(|program| standing(&before.machine, program));
    let want = answer(&call, changed.as_ref(), &mut model);
    let mut after = before.clone();
    let got = made(&table, &mut after, &call);
    judge(&call, &before, &after, got, &want, changed.as_ref().unwrap_or(program), model.as_ref())
        .map_err(|difference| format!("words damaged on purpose: {difference}"))?;
    counts.damaged += 1;
    counts.damaged_passed += (want.number != 6 && want.number != 7) as u64;
    counted(&call, &want, counts);
    Ok(())
}

// ---- the comparison call

fn compare_sides(random: &mut Random, table: &[u32], sides: &[Side; 2], counts: &mut Counts) -> Result<(), Difference> {
    let mut table = table.to_vec();
    let mut words = [sides[0].memory.machine.clone(), sides[random.below(4).min(1)].memory.machine.clone()];
    match random.below(10) {
        0 => change_words(random, &mut table),
        1 => change_words(random, &mut words[0]),
        2 => change_words(random, &mut words[1]),
        3 => words[random.below(2)].truncate(random.below(WORDS)),
        4 => table.truncate(random.below(WORDS)),
        5 => {
            let which = random.below(2);
            stopped_form(random, &mut words[which])
        }
        _ => {}
    }
    let want = compared(&table, &words);
    let got = board::alike(&table, &words[0], &words[1]);
    if got != want {
        return Err(format!("alike: {got:?}, the model has {want:?}"));
    }
    counts.alike[want.number as usize] += 1;
    let want = seen(&table, &words[1]);
    let got = board::look(&table, &words[1]);
    if got != want {
        return Err(format!("look: {got:?}, the model has {want:?}"));
    }
    counts.look[want.number as usize] += 1;
    Ok(())
}

// ---- the look

fn seen(table: &[u32], words: &[u32]) -> Seen {
    let refused = |number| Seen { number, place: 0, due_known: 0, moment: 0, due: 0 };
    if table.len() < WORDS || words.len() < WORDS {
        return refused(1);
    }
    let Some(program) = table_program(table) else { return refused(6) };
    let Some(machine) = standing(words, &program) else { return refused(7) };
    if machine.stopped.is_some() {
        return refused(8);
    }
    let due = machine.due();
    Seen { number: 0, place: 0, due_known: due.is_some() as u32, moment: machine.moment, due: due.unwrap_or(0) }
}

fn compared(table: &[u32], words: &[Vec<u32>; 2]) -> Compared {
    let refused = |number| Compared { number, place: 0, alike: 0 };
    if table.len() < WORDS || words.iter().any(|w| w.len() < WORDS) {
        return refused(1);
    }
    let Some(program) = table_program(table) else { return refused(6) };
    let (Some(a), Some(b)) = (standing(&words[0], &program), standing(&words[1], &program)) else { return refused(7) };
    if a.stopped.is_some() || b.stopped.is_some() {
        return refused(8);
    }
    Compared { number: 0, place: 0, alike: a.alike(&b, &program) as u32 }
}
