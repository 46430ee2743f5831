//! The walk: instants on a tree of routines, without a queue.

use crate::listing::{Child, Instruction, Piece, Program};
use crate::signs;
use std::collections::BTreeMap;
use std::ops::RangeInclusive;

/// The number of a question.
pub type Number = u32;
/// Environment variables are numbered from 0 as main's names; the others follow.
pub type Variable = u64;

/// "the deepest level is 10"
pub const DEEPEST_LEVEL: usize = 10;
/// "At most 64 routines live"
pub const MOST_LIVE: usize = 64;
/// The numbers that stop a machine: 13 to 17, and 18 of document 02's Change 2.
pub const STOPS: RangeInclusive<Number> = 13..=18;
/// All numbers: 0, the refusals and the stops.
pub const NUMBERS: usize = 19;

/// "Each variable has at most one waiting write": moment due and value.
#[derive(Clone, Copy, Debug, Default, PartialEq)]
pub struct Cell {
    pub value: i32,
    pub written: bool,
    pub waiting: Option<(u64, i32)>,
}

/// A live routine and the children it has forked that are still live, in order.
#[derive(Clone, Debug, PartialEq)]
pub struct Live {
    pub routine: usize,
    pub level: usize,
    pub field: usize,
    pub at: usize,
    pub names: Vec<Variable>,
    pub own: Vec<Variable>,
    pub children: Vec<Live>,
}

#[derive(Clone, Debug, PartialEq)]
pub struct Machine {
    pub moment: u64,
    pub main: Option<Live>,
    pub cells: BTreeMap<Variable, Cell>,
    pub next_variable: Variable,
    pub stopped: Option<Number>,
}

/// The result of a start or an instant.
#[derive(Clone, Debug, PartialEq)]
pub struct Answer {
    pub number: Number,
    pub steps: u32,
    pub outputs: Vec<(u32, i32)>,
    pub due: Option<u64>,
}

impl Answer {
    /// "its other result figures are 0 and due is none"
    pub fn refused(number: Number) -> Answer {
        Answer { number, steps: 0, outputs: Vec::new(), due: None }
    }
}

/// How many routines of this tree live.
pub fn count(live: &Live) -> usize {
    1 + live.children.iter().map(count).sum::<usize>()
}

impl Machine {
    /// The environment's variables and nothing else: what main leaves if it ends at once.
    pub fn without_main(program: &Program, moment: u64) -> Machine {
        let environment = (program.inputs + program.outputs) as Variable;
        Machine {
            moment,
            main: None,
            cells: (0..environment).map(|v| (v, Cell::default())).collect(),
            next_variable: environment,
            stopped: None,
        }
    }

    /// "The start is the instant 0, with main newly called and no inputs."
    pub fn start(program: &Program, allowance: u32) -> Result<(Machine, Answer), Number> {
        let mut machine = Machine::without_main(program, 0);
        machine.main = Some(machine.call_main(program));
        let answer = machine.walk(program, allowance, true)?;
        Ok((machine, answer))
    }

    /// One instant at `t`, or the first question from 8 to 12 that is answered no.
    pub fn instant(&mut self, program: &Program, t: u64, inputs: &[(u32, i32)], allowance: u32) -> Answer {
        if let Some(number) = self.refusal(program, t, inputs, allowance) {
            return Answer::refused(number);
        }
        self.moment = t;
        self.make_due_writes();
        for &(number, value) in inputs {
            self.press(Variable::from(number), value);
        }
        self.walk(program, allowance, false).unwrap_or_else(|number| {
            *self = Machine::stopped(number);
            Answer::refused(number)
        })
    }

    /// "the next moment due or none"
    pub fn due(&self) -> Option<u64> {
        let waiting = self.cells.values().filter_map(|cell| cell.waiting);
        waiting.map(|(due, _)| due).min()
    }

    /// The moment at which the variable's waiting write is due, if it has one.
    pub fn waiting(&self, variable: Variable) -> Option<u64> {
        self.cells.get(&variable)?.waiting.map(|(due, _)| due)
    }

    /// "Two running machines are alike when their present moments and the values of all
    /// environment variables are equal."
    pub fn alike(&self, other: &Machine, program: &Program) -> bool {
        let environment = (program.inputs + program.outputs) as Variable;
        let value = |machine: &Machine, v| machine.cells.get(&v).map(|cell| cell.value);
        let running = self.stopped.is_none() && other.stopped.is_none();
        let equal = (0..environment).all(|v| value(self, v) == value(other, v));
        running && self.moment == other.moment && equal
    }

    /// "Every waiting write due at t is made, and is gone."
    fn make_due_writes(&mut self) {
        for cell in self.cells.values_mut() {
            match cell.waiting {
                Some((due, value)) if due == self.moment => {
                    cell.value = value;
                    cell.written = true;
                    cell.waiting = None;
                }
                _ => {}
            }
        }
    }

    fn cell(&mut self, variable: Variable) -> &mut Cell {
        self.cells.get_mut(&variable).expect("a living variable")
    }

    /// What `S` does. Of the waiting write document 01 says "`S` .. leave it there", and document 02's
    /// Change 4: "`S` still doesn't" drop it.
    fn write(&mut self, variable: Variable, value: i32) {
        let cell = self.cell(variable);
        cell.value = value;
        cell.written = true;
    }

    /// What an input does: it writes, and "An input now drops any waiting write on its variable"
    /// (document 02, Change 4).
    fn press(&mut self, variable: Variable, value: i32) {
        self.write(variable, value);
        self.cell(variable).waiting = None;
    }

    /// "New variables hold 0, or the passed value for `v`, and are not written."
    fn new_variable(&mut self, value: i32) -> Variable {
        let variable = self.next_variable;
        let cell = Cell { value, ..Cell::default() };
        self.cells.insert(variable, cell);
        self.next_variable += 1;
        variable
    }

    /// A routine newly called with the variables that are passed to it.
    fn call(&mut self, program: &Program, routine: usize, passed: &[Variable]) -> Live {
        let called = &program.routines[routine];
        let (mut names, mut own) = (passed.to_vec(), Vec::new());
        for (name, by_reference) in names.iter_mut().zip(&called.by_reference) {
            if !by_reference {
                let value = self.cell(*name).value;
                *name = self.new_variable(value);
                own.push(*name);
            }
        }
        for _ in 0..called.locals {
            let local = self.new_variable(0);
            names.push(local);
            own.push(local);
        }
        Live { routine, level: 0, field: 0, at: 0, names, own, children: Vec::new() }
    }

    /// "Main has i + o arguments, all `r`: the environment's variables, inputs first."
    /// "Main is at level 0"
    pub fn call_main(&mut self, program: &Program) -> Live {
        let passed: Vec<Variable> = (0..self.next_variable).collect();
        self.call(program, 0, &passed)
    }

    /// The child that field number `field` of the parent's `F` makes: "a child one deeper".
    pub fn call_child(&mut self, program: &Program, parent: &Live, field: usize, child: &Child) -> Live {
        let passed: Vec<Variable> = child.names.iter().map(|&n| parent.names[n]).collect();
        Live { level: parent.level + 1, field, ..self.call(program, child.routine, &passed) }
    }

    /// "The tree is visited from main." Gives the result; no mark of the instant is left.
    fn walk(&mut self, program: &Program, allowance: u32, new: bool) -> Result<Answer, Number> {
        let mut main = self.main.take();
        let live = main.as_ref().map_or(0, count);
        let mut walk = Walk { program, machine: self, live, left: allowance };
        let lives = match &mut main {
            Some(main) => walk.turn(main, new)?,
            None => false,
        };
        let steps = allowance - walk.left;
        self.main = main.filter(|_| lives);
        let outputs = self.written_outputs(program);
        self.cells.values_mut().for_each(|cell| cell.written = false);
        Ok(Answer { number: 0, steps, outputs, due: self.due() })
    }

    /// "Outputs written in the instant are put in the two lent lists (number, final value),
    /// rising by number". "An output's number is its name number in main."
    fn written_outputs(&self, program: &Program) -> Vec<(u32, i32)> {
        let numbers = program.inputs..program.inputs + program.outputs;
        let listed = numbers.map(|number| (number as u32, self.cells[&(number as Variable)]));
        let written = listed.filter(|(_, cell)| cell.written);
        written.map(|(number, cell)| (number, cell.value)).collect()
    }

    /// "The machine's first word holds the number (0 while running), its other 12,287 words
    /// are 0": nothing else is left.
    pub fn stopped(number: Number) -> Machine {
        Machine { moment: 0, main: None, cells: BTreeMap::new(), next_variable: 0, stopped: Some(number) }
    }
}

/// Does the routine still live after its turn?
type Turn = Result<bool, Number>;

/// An instant under way: live routines and steps left.
struct Walk<'a> {
    program: &'a Program,
    machine: &'a mut Machine,
    live: usize,
    left: u32,
}

impl<'a> Walk<'a> {
    /// A routine's turn: a new one runs, another is visited.
    fn turn(&mut self, live: &mut Live, new: bool) -> Turn {
        match new {
            true => self.run(live),
            false => self.visit(live),
        }
    }

    fn instruction(&self, live: &Live) -> &'a Instruction {
        &self.program.routines[live.routine].code[live.at]
    }

    /// "A routine at `W` goes on if a name of that wait has been written in this instant
    /// before its turn; otherwise it stays. At `F`, the live children are visited in order;
    /// once none is left the parent goes on in the same instant."
    fn visit(&mut self, live: &mut Live) -> Turn {
        let stays = match self.instruction(live) {
            Instruction::Wait { names } => !names.iter().any(|&n| self.written(live, n)),
            _ => self.children(live, false)?,
        };
        if stays {
            return Ok(true);
        }
        live.at += 1;
        self.run(live)
    }

    /// The turns of the children, in order; is one left?
    fn children(&mut self, live: &mut Live, new: bool) -> Turn {
        for mut child in std::mem::take(&mut live.children) {
            if self.turn(&mut child, new)? {
                live.children.push(child);
            }
        }
        Ok(!live.children.is_empty())
    }

    /// "A running routine goes until `W`, `F` or `E`."
    fn run(&mut self, live: &mut Live) -> Turn {
        loop {
            self.count_step()?;
            live.at = match self.instruction(live) {
                Instruction::Set { name, value } => {
                    let value = self.value(live, value)?;
                    self.machine.write(live.names[*name], value);
                    live.at + 1
                }
                Instruction::After { name, delay, value } => {
                    let waiting = self.waiting_write(live, delay, value)?;
                    self.machine.cell(live.names[*name]).waiting = Some(waiting);
                    live.at + 1
                }
                Instruction::Unless { test, target } => match self.value(live, test)? {
                    0 => *target,
                    _ => live.at + 1,
                },
                Instruction::Go { target } => *target,
                // "A wait reached now sleeps, even if its name was written earlier in this
                // instant."
                Instruction::Wait { .. } => return Ok(true),
                Instruction::Fork { children } => {
                    self.fork(live, children)?;
                    if self.children(live, true)? {
                        return Ok(true);
                    }
                    live.at + 1
                }
                Instruction::End => {
                    self.end(live);
                    return Ok(false);
                }
            };
        }
    }

    /// "each instruction reached counts one"; "13 Is a step left?"
    fn count_step(&mut self) -> Result<(), Number> {
        self.left = self.left.checked_sub(1).ok_or(13u32)?;
        Ok(())
    }

    /// "18: is every divisor other than 0? Asked .. at `A` before 16, delay first."
    /// "16 At `A`: is the delay at least 1?" "17 At `A`: is the due moment below 2 to the 64?"
    fn waiting_write(&self, live: &Live, delay: &[Piece], value: &[Piece]) -> Result<(u64, i32), Number> {
        let delay = self.value(live, delay)?;
        let value = self.value(live, value)?;
        if delay < 1 {
            return Err(16);
        }
        let due = self.machine.moment.checked_add(delay as u64).ok_or(17u32)?;
        Ok((due, value))
    }

    /// "At `F` all children exist and all `v` values are copied before the first child runs."
    fn fork(&mut self, live: &mut Live, children: &[Child]) -> Result<(), Number> {
        // "14 At `F`: live routines plus new children at most 64?"
        if self.live + children.len() > MOST_LIVE {
            return Err(14);
        }
        // "15 At `F`: is this routine's level at most 9?"
        if live.level > DEEPEST_LEVEL - 1 {
            return Err(15);
        }
        self.live += children.len();
        for (field, child) in children.iter().enumerate() {
            let child = self.machine.call_child(self.program, live, field, child);
            live.children.push(child);
        }
        Ok(())
    }

    /// "At `E` the routine's own variables vanish with their waiting writes."
    fn end(&mut self, live: &Live) {
        self.live -= 1;
        for variable in &live.own {
            self.machine.cells.remove(variable);
        }
    }

    fn written(&self, live: &Live, name: usize) -> bool {
        self.machine.cells[&live.names[name]].written
    }

    /// "Evaluating can now fail": with 18, at the first divisor that is 0, whatever becomes of the quotient.
    fn value(&self, live: &Live, pieces: &[Piece]) -> Result<i32, Number> {
        signs::value(pieces, |name| self.machine.cells[&live.names[name]]).ok_or(18)
    }
}
