//! A plain queue engine, the benchmark's peer: the listing decoded once, rows in arrays, a ready list
//! by priority, trigger lists, waiting writes in a heap. No proofs, no questions on memory; the same
//! programs. No step allocates, and none decodes.

use crate::expression::{dividing, Held, HELD};
use crate::flat::{Code, Field, Operation, OPERATIONS};
use crate::listing::Program;
use crate::queues::{Ready, Triggers, Waiting, NAMES, NONE, SLOTS, VARIABLES};
use std::hint::cold_path;

/// The slot after the others is the environment's, for its variables only.
const ENVIRONMENT: usize = SLOTS * NAMES;
const MAIN: usize = 0;
const DEEPEST_LEVEL: u8 = 10;

#[derive(Clone, Copy)]
struct Variable {
    value: i32,
    /// The first of its triggers.
    first: u16,
    /// The count of instants in which it was last written; 0 never.
    written: u64,
}

#[derive(Clone, Copy)]
#[repr(align(64))]
struct Row {
    /// The operation to go on with: after its `W` or `F`, else its first.
    at: u32,
    level: u8,
    parent: u8,
    children: u8,
    /// The width of its range of priorities, in bits.
    bits: u8,
    names: [u16; NAMES],
}

/// The result of a start or an instant; the outputs stand in the engine.
#[derive(Clone, Copy, Debug, PartialEq)]
pub struct Result {
    pub number: u32,
    pub steps: u32,
    pub listed: u32,
    pub due: Option<u64>,
}

/// The stop's number, if there is one.
type Run<T> = std::result::Result<T, u32>;

/// The steps that are left.
struct Left(u32);

impl Left {
    #[inline(always)]
    fn count(&mut self) -> Run<()> {
        self.0 = self.0.checked_sub(1).ok_or(13u32)?;
        Ok(())
    }
}

pub struct Plain {
    code: Code,
    rows: Box<[Row; SLOTS]>,
    variables: Box<[Variable; VARIABLES]>,
    /// The slots that are free, as bits, and how many live.
    free: u64,
    live: u32,
    ready: Ready,
    triggers: Triggers,
    waiting: Waiting,
    count: u64,
    moment: u64,
    steps_left: u32,
    stopped: u32,
    held: [i32; HELD],
    apart: [i32; HELD],
    pub outputs: [(u32, i32); NAMES],
}

fn refused(number: u32) -> Result {
    Result { number, steps: 0, listed: 0, due: None }
}

impl Plain {
    pub fn new(program: &Program) -> Plain {
        Plain {
            code: Code::new(program),
            rows: Box::new([Row { at: 0, level: 0, parent: 0, children: 0, bits: 32, names: [0; NAMES] }; SLOTS]),
            variables: Box::new([Variable { value: 0, first: NONE, written: 0 }; VARIABLES]),
            free: u64::MAX,
            live: 0,
            ready: Ready::new(),
            triggers: Triggers::new(),
            waiting: Waiting::new(),
            count: 0,
            moment: 0,
            steps_left: 0,
            stopped: 0,
            held: [0; HELD],
            apart: [0; HELD],
            outputs: [(0, 0); NAMES],
        }
    }

    pub fn start(&mut self, allowance: u32) -> Result {
        if !(1..=1_000_000).contains(&allowance) {
            return refused(12);
        }
        self.variables.fill(Variable { value: 0, first: NONE, written: 0 });
        self.waiting.clear();
        self.ready.clear();
        self.stopped = 0;
        (self.free, self.live) = (!(1 << MAIN), 1);
        self.open(0, allowance);
        let environment = self.code.inputs + self.code.outputs;
        let names = std::array::from_fn(|name| match name.checked_sub(environment) {
            None => ENVIRONMENT + name,
            Some(local) => MAIN * NAMES + local,
        } as u16);
        self.rows[MAIN] = Row { at: 0, level: 0, parent: SLOTS as u8, children: 0, bits: 32, names };
        self.ready.priorities[MAIN] = 0;
        let went = self.run(Some(MAIN));
        self.close(allowance, went)
    }

    pub fn instant(&mut self, t: u64, numbers: &[u32], values: &[u32], allowance: u32) -> Result {
        if self.stopped != 0 {
            return refused(8);
        }
        if t <= self.moment {
            return refused(9);
        }
        if self.waiting.due().is_some_and(|due| due < t) {
            return refused(10);
        }
        let rising = numbers.windows(2).all(|pair| pair[0] < pair[1]);
        if !rising || numbers.last().is_some_and(|&n| n as usize >= self.code.inputs) {
            return refused(11);
        }
        if !(1..=1_000_000).contains(&allowance) {
            return refused(12);
        }
        self.open(t, allowance);
        while let Some((variable, value)) = self.waiting.take(t) {
            self.write(variable as usize, value);
        }
        for (&number, &value) in numbers.iter().zip(values) {
            self.press(ENVIRONMENT + number as usize, value as i32);
        }
        let went = self.run(None);
        self.close(allowance, went)
    }

    fn open(&mut self, t: u64, allowance: u32) {
        self.count += 1;
        self.moment = t;
        self.steps_left = allowance;
    }

    fn close(&mut self, allowance: u32, went: Run<()>) -> Result {
        if let Err(number) = went {
            self.stopped = number;
            return refused(number);
        }
        let mut listed = 0;
        for k in self.code.inputs..self.code.inputs + self.code.outputs {
            let variable = &self.variables[ENVIRONMENT + k];
            if variable.written == self.count {
                self.outputs[listed] = (k as u32, variable.value);
                listed += 1;
            }
        }
        Result { number: 0, steps: allowance - self.steps_left, listed: listed as u32, due: self.waiting.due() }
    }

    /// A write before the run: a due one, or an input.
    fn write(&mut self, v: usize, value: i32) {
        let variable = &mut self.variables[v % VARIABLES];
        (variable.value, variable.written) = (value, self.count);
        self.triggers.wake(variable.first, None, &mut self.ready);
    }

    /// An input: a write that drops the variable's waiting write. The heap knows its place in it, or that it has none.
    fn press(&mut self, v: usize, value: i32) {
        self.waiting.drop_variable(v as u16);
        self.write(v, value);
    }

    /// Runs this routine, then the ready ones, until none is left.
    fn run(&mut self, first: Option<usize>) -> Run<()> {
        let mut next = first;
        while let Some(slot) = next.or_else(|| self.take_ready()) {
            next = match self.go_on(slot)? {
                Operation::Wait { from, count } => self.sleep(slot, from as usize, count as usize),
                Operation::Fork { from, count } => self.fork(slot, from as usize, count as usize)?,
                _ => self.end(slot),
            };
        }
        Ok(())
    }

    fn take_ready(&mut self) -> Option<usize> {
        let (slot, asleep) = self.ready.take()?;
        if asleep {
            self.awake(slot);
        }
        Some(slot)
    }

    /// Runs a routine to its next `W`, `F` or `E`, and gives that.
    /// Of 22 branches here the compiler made one jump for all; of these each has its own, which is quicker.
    #[inline]
    fn go_on(&mut self, slot: usize) -> Run<Operation> {
        let Plain { code, rows, variables, ready, triggers, waiting, count, moment, held, apart, .. } = self;
        let (row, count) = (&mut rows[slot % SLOTS], *count);
        let (operations, variables) = (&*code.operations, &mut **variables);
        let variable = |name: u8| row.names[name as usize % NAMES] as usize % VARIABLES;
        let mut at = row.at as usize;
        let mut left = Left(self.steps_left);
        let mut held = Held::new(held);
        loop {
            let operation = &operations[at % OPERATIONS];
            at += 1;
            match *operation {
                Operation::Literal(value) => held.push(value),
                Operation::Value { name } => held.push(variables[variable(name)].value),
                Operation::Written { name } => held.push((variables[variable(name)].written == count) as i32),
                Operation::Two { operator } => held.two(operator),
                Operation::WithLiteral { operator, right } => held.with(operator, right),
                Operation::WithValue { operator, right } => held.with(operator, variables[variable(right)].value),
                Operation::TwoValues { operator, left, right } => {
                    held.push(operator.of(variables[variable(left)].value, variables[variable(right)].value))
                }
                Operation::ValueAndLiteral { operator, left, right } => {
                    held.push(operator.of(variables[variable(left)].value, right))
                }
                Operation::LiteralAndValue { operator, left, right } => {
                    held.push(operator.of(left, variables[variable(right)].value))
                }
                Operation::Long { from, count: parts } => {
                    let parts = &code.parts[from as usize..from as usize + parts as usize];
                    held.long(parts, |name| {
                        let variable = &variables[variable(name)];
                        (variable.value, variable.written == count)
                    });
                }
                Operation::Dividing { from, count: parts } => {
                    let parts = &code.parts[from as usize..from as usize + parts as usize];
                    let (variables, names) = (&*variables, &row.names);
                    let value = dividing(apart, parts, move |name| {
                        let variable = &variables[names[name as usize % NAMES] as usize % VARIABLES];
                        (variable.value, variable.written == count)
                    });
                    held.push(value.ok_or(if left.0 == 0 { 13u32 } else { 18 })?);
                }
                Operation::Set { name } => {
                    left.count()?;
                    let variable = &mut variables[variable(name)];
                    (variable.value, variable.written) = (held.value(), count);
                    if variable.first != NONE {
                        triggers.wake(variable.first, Some(ready.priorities[slot % SLOTS]), ready);
                    }
                }
                Operation::After { name } => {
                    left.count()?;
                    let (value, delay) = held.value_and_delay();
                    if delay < 1 {
                        return Err(16);
                    }
                    let due = moment.checked_add(delay as u64).ok_or(17u32)?;
                    waiting.put(variable(name) as u16, due, value);
                }
                Operation::Unless { target } => {
                    left.count()?;
                    if held.value() == 0 {
                        // Keeps this a branch: a conditional move would make what follows wait for the value.
                        cold_path();
                        at = target as usize;
                    }
                }
                Operation::Go { target } => {
                    left.count()?;
                    at = target as usize;
                }
                Operation::Wait { .. } | Operation::Fork { .. } | Operation::End => {
                    left.count()?;
                    row.at = at as u32;
                    self.steps_left = left.0;
                    return Ok(*operation);
                }
            }
        }
    }

    fn sleep(&mut self, slot: usize, from: usize, count: usize) -> Option<usize> {
        for (j, &name) in self.code.waited[from..from + count].iter().enumerate() {
            let v = self.rows[slot % SLOTS].names[name as usize % NAMES];
            self.triggers.enter(4 * slot + j, &mut self.variables[v as usize % VARIABLES].first);
        }
        None
    }

    /// Takes a sleeper out of the trigger lists of its `W`, the operation before the one it goes on with.
    fn awake(&mut self, slot: usize) {
        let row = &self.rows[slot % SLOTS];
        let Operation::Wait { from, count } = self.code.operations[(row.at as usize - 1) % OPERATIONS] else { return };
        for (j, &name) in self.code.waited[from as usize..from as usize + count as usize].iter().enumerate() {
            let v = row.names[name as usize % NAMES];
            self.triggers.leave(4 * slot + j, &mut self.variables[v as usize % VARIABLES].first);
        }
    }

    /// Makes the children; gives the first, which runs at once. The others are ready.
    fn fork(&mut self, parent: usize, from: usize, count: usize) -> Run<Option<usize>> {
        if self.live as usize + count > SLOTS {
            return Err(14);
        }
        let row = &mut self.rows[parent % SLOTS];
        if row.level >= DEEPEST_LEVEL {
            return Err(15);
        }
        row.children = count as u8;
        self.live += count as u32;
        let bits = row.bits - (usize::BITS - (count - 1).leading_zeros()) as u8;
        let mut slot = MAIN;
        for k in (0..count).rev() {
            slot = self.free.trailing_zeros() as usize;
            self.free &= self.free - 1;
            self.enter(slot, parent, bits, self.code.fields[from + k]);
            let priority = u64::from(self.ready.priorities[parent % SLOTS]) + ((k as u64) << bits);
            self.ready.priorities[slot % SLOTS] = priority as u32;
            if k > 0 {
                self.ready.put_first(slot);
            }
        }
        Ok(Some(slot))
    }

    /// A new row: names passed by reference are the parent's variables, the others the row's own.
    #[inline]
    fn enter(&mut self, slot: usize, parent: usize, bits: u8, field: Field) {
        let Row { level, names: passed, .. } = self.rows[parent % SLOTS];
        let row = &mut self.rows[slot % SLOTS];
        (row.at, row.level, row.parent, row.children, row.bits) = (field.first, level + 1, parent as u8, 0, bits);
        let (mut own, from, count) = (slot * NAMES, field.from as usize, field.count as usize);
        for (j, argument) in self.code.arguments[from..from + count].iter().enumerate() {
            let v = passed[argument.name as usize % NAMES];
            row.names[j % NAMES] = v;
            if !argument.by_reference {
                let value = self.variables[v as usize % VARIABLES].value;
                row.names[j % NAMES] = own as u16;
                self.variables[own % VARIABLES] = Variable { value, first: NONE, written: 0 };
                own += 1;
            }
        }
        for j in count..count + field.locals as usize {
            row.names[j % NAMES] = own as u16;
            self.variables[own % VARIABLES] = Variable { value: 0, first: NONE, written: 0 };
            own += 1;
        }
    }

    /// Ends a routine; gives its parent if that goes on.
    fn end(&mut self, slot: usize) -> Option<usize> {
        self.waiting.drop_slot(slot);
        self.free |= 1 << slot;
        self.live -= 1;
        let parent = self.rows[slot % SLOTS].parent as usize;
        if parent == SLOTS {
            return None;
        }
        let row = &mut self.rows[parent % SLOTS];
        row.children -= 1;
        (row.children == 0).then_some(parent)
    }
}
