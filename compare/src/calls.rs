//! Starts and instants as calls: the model's answer to one, and calls at random.

use crate::listing::Program;
use crate::questions::allowance_in_range;
use crate::random::Random;
use crate::walk::{Answer, Machine, Variable};

/// One start (`t` none) or instant, with its two lists of inputs.
#[derive(Clone, Debug, PartialEq)]
pub struct Call {
    pub t: Option<u64>,
    pub numbers: Vec<u32>,
    pub values: Vec<u32>,
    pub allowance: u32,
}

/// The model's answer, the lent memories being long enough. No program: 6; no machine: 7.
pub fn answer(call: &Call, program: Option<&Program>, machine: &mut Option<Machine>) -> Answer {
    let Some(program) = program else { return Answer::refused(6) };
    let Some(t) = call.t else {
        return start(program, call.allowance, machine);
    };
    let inputs: Vec<(u32, i32)> = call.numbers.iter().zip(&call.values).map(|(&n, &v)| (n, v as i32)).collect();
    match machine {
        Some(machine) => machine.instant(program, t, &inputs, call.allowance),
        None => Answer::refused(7),
    }
}

/// A start: refused (12), stopped, or done.
fn start(program: &Program, allowance: u32, machine: &mut Option<Machine>) -> Answer {
    if !allowance_in_range(allowance) {
        return Answer::refused(12);
    }
    match Machine::start(program, allowance) {
        Ok((started, answer)) => {
            *machine = Some(started);
            answer
        }
        Err(number) => {
            *machine = Some(Machine::stopped(number));
            Answer::refused(number)
        }
    }
}

/// A call that suits the machine's present moment and what is due, mostly.
pub fn random_call(random: &mut Random, program: &Program, model: Option<&Machine>) -> Call {
    let allowance = match random.below(60) {
        0 => *random.pick(&[0, 1_000_001, u32::MAX]),
        1..=4 => 1 + random.below(8) as u32,
        5 if random.once_in(100) => 1_000_000,
        _ => 200 + random.below(2_000) as u32,
    };
    let fresh = model.is_none_or(|m| m.stopped.is_some()) && !random.once_in(4);
    if fresh || random.once_in(40) {
        return Call { t: None, numbers: Vec::new(), values: Vec::new(), allowance };
    }
    let (moment, due) = model.map_or((0, None), |m| (m.moment, m.due()));
    let (numbers, values) = random_inputs(random, program.inputs, model);
    Call { t: Some(random_time(random, moment, due)), numbers, values, allowance }
}

fn random_time(random: &mut Random, moment: u64, due: Option<u64>) -> u64 {
    let little = random.below(6) as u64;
    match (random.below(40), due) {
        (0, _) => moment.saturating_sub(little),
        (1, Some(due)) => due.saturating_add(1 + little),
        (2, None) => u64::MAX - little,
        (3, Some(due)) => due - 1,
        (4, _) => random.bits(),
        (5..=22, Some(due)) => due,
        (_, Some(due)) => due.min(moment.saturating_add(1 + little)),
        (_, None) => moment.saturating_add(1 + little),
    }
}

/// Inputs that are there, rising: those that have a waiting write, one alone, or about half of all.
fn rising_inputs(random: &mut Random, inputs: u32, model: Option<&Machine>) -> Vec<u32> {
    let waits = |number| model.is_some_and(|m| m.waiting(Variable::from(number)).is_some());
    match random.below(4) {
        0 => (0..inputs).filter(|&number| waits(number)).collect(),
        1 if inputs > 0 => vec![random.below(inputs as usize) as u32],
        _ => (0..inputs).filter(|_| random.once_in(2)).collect(),
    }
}

fn random_inputs(random: &mut Random, inputs: usize, model: Option<&Machine>) -> (Vec<u32>, Vec<u32>) {
    let mut numbers = rising_inputs(random, inputs as u32, model);
    match random.below(40) {
        0 => numbers.push(inputs as u32),
        1 => numbers.extend_from_within(..),
        2 => numbers.reverse(),
        3 => numbers.push(random.bits() as u32),
        4 if random.once_in(10) => numbers = (0..40).collect(),
        _ => {}
    }
    let values = numbers.iter().map(|_| random.value() as u32).collect();
    (numbers, values)
}
