//! The layout of the table and the machine memory, and questions 6 and 7.

use crate::listing::{load, text, Child, Instruction, Piece, Program, Routine};
use crate::walk::{Cell, Live, Machine, Variable, DEEPEST_LEVEL, MOST_LIVE, STOPS};
use std::collections::{BTreeMap, BTreeSet};

/// "Table 12,288 words of 32 bits, machine 12,288"
pub const WORDS: usize = 12_288;

const ROUTINES: usize = 8;
pub const INSTRUCTIONS: usize = 328;
const CELLS: usize = 2_888;
const CELLS_END: usize = CELLS + 2 * 4_096;
const ORDER: usize = 64;
const BLOCKS: usize = 328;
const BLOCK: usize = 184;
const ENVIRONMENT: usize = 64;
const VARIABLES: usize = 8;

// ---- the table

/// The words that loading the listing of this program leaves.
pub fn table_words(program: &Program) -> Vec<u32> {
    let mut words = vec![0; WORDS];
    put(&mut words, 0, &[program.inputs, program.outputs, program.routines.len()]);
    let (mut number, mut address) = (0, CELLS);
    for (index, routine) in program.routines.iter().enumerate() {
        let kinds = routine.by_reference.iter().enumerate();
        let bits = kinds.map(|(k, &kind)| usize::from(kind) << k).sum();
        let head = [routine.by_reference.len(), bits, routine.locals, number, routine.code.len()];
        put(&mut words, ROUTINES + 5 * index, &head);
        for instruction in &routine.code {
            let (head, cells) = instruction_words(instruction, address);
            put(&mut words, INSTRUCTIONS + 5 * number, &head);
            for (kind, value) in cells {
                words[address..address + 2].copy_from_slice(&[kind, value]);
                address += 2;
            }
            number += 1;
        }
    }
    words
}

fn put(words: &mut [u32], at: usize, figures: &[usize]) {
    for (word, &figure) in words[at..].iter_mut().zip(figures) {
        *word = figure as u32;
    }
}

/// "kind; operand; word address of its cells; first count; second count", and the cells.
fn instruction_words(instruction: &Instruction, address: usize) -> ([usize; 5], Vec<(u32, u32)>) {
    let name = |&name: &usize| (0, name as u32);
    match instruction {
        Instruction::Set { name, value } => ([1, *name, address, value.len(), 0], cells(value)),
        Instruction::After { name, delay, value } => {
            ([2, *name, address, delay.len(), value.len()], [cells(delay), cells(value)].concat())
        }
        Instruction::Unless { test, target } => ([3, *target, address, test.len(), 0], cells(test)),
        Instruction::Go { target } => ([4, *target, address, 0, 0], Vec::new()),
        Instruction::Wait { names } => ([5, 0, address, names.len(), 0], names.iter().map(name).collect()),
        Instruction::Fork { children } => {
            let mut cells = Vec::new();
            for child in children {
                cells.push((child.names.len() as u32, child.routine as u32));
                cells.extend(child.names.iter().map(name));
            }
            ([6, 0, address, children.len(), 0], cells)
        }
        Instruction::End => ([7, 0, address, 0, 0], Vec::new()),
    }
}

/// "A piece is (kind, value)"
fn cells(pieces: &[Piece]) -> Vec<(u32, u32)> {
    let cell = |piece: &Piece| match *piece {
        Piece::Literal(value) => (0, value as u32),
        Piece::Value(name) => (1, name as u32),
        Piece::Written(name) => (2, name as u32),
        Piece::Plus => (3, 0),
        Piece::Minus => (4, 0),
        Piece::Times => (5, 0),
        Piece::Less => (6, 0),
        Piece::Quotient => (7, 0),
        Piece::Remainder => (8, 0),
    };
    pieces.iter().map(cell).collect()
}

/// "6 Is the table one that loading some listing leaves?" A program has one listing only, so
/// the words must stand for a program whose listing loads and leaves these very words.
pub fn table_program(words: &[u32]) -> Option<Program> {
    let words = words.get(..WORDS)?;
    let program = read_program(words)?;
    let loads = load(&text(&program)).as_ref() == Ok(&program);
    (loads && table_words(&program) == words).then_some(program)
}

/// A first reading of the words, only kept inside the memory.
fn read_program(words: &[u32]) -> Option<Program> {
    let mut table = Table { words, number: 0, address: CELLS };
    let routines = words[2] as usize;
    if routines > 64 {
        return None;
    }
    Some(Program {
        inputs: words[0] as usize,
        outputs: words[1] as usize,
        routines: (0..routines).map(|index| table.routine(ROUTINES + 5 * index)).collect::<Option<_>>()?,
    })
}

/// The table with the next instruction's number and the next cell's address.
struct Table<'a> {
    words: &'a [u32],
    number: usize,
    address: usize,
}

impl Table<'_> {
    fn routine(&mut self, at: usize) -> Option<Routine> {
        let [arguments, bits, locals, _, instructions] = five(self.words, at);
        if arguments > 16 || instructions > 512 {
            return None;
        }
        Some(Routine {
            by_reference: (0..arguments).map(|k| bits >> k & 1 == 1).collect(),
            locals,
            code: (0..instructions).map(|_| self.instruction()).collect::<Option<_>>()?,
        })
    }

    fn instruction(&mut self) -> Option<Instruction> {
        if self.number == 512 {
            return None;
        }
        let [kind, operand, _, first, second] = five(self.words, INSTRUCTIONS + 5 * self.number);
        self.number += 1;
        Some(match kind {
            1 => Instruction::Set { name: operand, value: self.pieces(first)? },
            2 => Instruction::After { name: operand, delay: self.pieces(first)?, value: self.pieces(second)? },
            3 => Instruction::Unless { test: self.pieces(first)?, target: operand },
            4 => Instruction::Go { target: operand },
            5 => Instruction::Wait { names: self.names(first)? },
            6 if first <= 8 => Instruction::Fork { children: (0..first).map(|_| self.child()).collect::<Option<_>>()? },
            7 => Instruction::End,
            _ => return None,
        })
    }

    fn cell(&mut self) -> Option<(u32, u32)> {
        if self.address == CELLS_END {
            return None;
        }
        self.address += 2;
        Some((self.words[self.address - 2], self.words[self.address - 1]))
    }

    fn pieces(&mut self, count: usize) -> Option<Vec<Piece>> {
        (0..count).map(|_| self.piece()).collect()
    }

    fn piece(&mut self) -> Option<Piece> {
        let (kind, value) = self.cell()?;
        Some(match kind {
            0 => Piece::Literal(value as i32),
            1 => Piece::Value(value as usize),
            2 => Piece::Written(value as usize),
            3 => Piece::Plus,
            4 => Piece::Minus,
            5 => Piece::Times,
            6 => Piece::Less,
            7 => Piece::Quotient,
            8 => Piece::Remainder,
            _ => return None,
        })
    }

    fn names(&mut self, count: usize) -> Option<Vec<usize>> {
        (0..count).map(|_| Some(self.cell()?.1 as usize)).collect()
    }

    fn child(&mut self) -> Option<Child> {
        let (arguments, routine) = self.cell()?;
        Some(Child { routine: routine as usize, names: self.names(arguments as usize)? })
    }
}

fn five(words: &[u32], at: usize) -> [usize; 5] {
    std::array::from_fn(|k| words[at + k] as usize)
}

// ---- the machine

/// What machine words stand for.
pub enum Standing {
    Stopped,
    Running(Machine),
}

/// Live routines in walking order: "a parent before its children, children in the order of
/// their `F`".
fn walking_order(main: &Option<Live>) -> Vec<&Live> {
    fn add<'a>(live: &'a Live, order: &mut Vec<&'a Live>) {
        order.push(live);
        live.children.iter().for_each(|child| add(child, order));
    }
    let mut order = Vec::new();
    main.iter().for_each(|main| add(main, &mut order));
    order
}

fn block(slot: usize) -> usize {
    BLOCKS + BLOCK * slot
}

/// The words of a machine with the k-th live routine in walking order in slot `slots[k]`.
pub fn machine_words(machine: &Machine, slots: &[usize]) -> Vec<u32> {
    let mut words = vec![0; WORDS];
    if let Some(number) = machine.stopped {
        words[0] = number;
        return words;
    }
    put_moment(&mut words, 1, machine.moment);
    let order = walking_order(&machine.main);
    words[3] = order.len() as u32;
    for (k, (live, &slot)) in order.iter().zip(slots).enumerate() {
        let head = [k + 1, live.level, live.field, live.at, live.own.len()];
        words[ORDER + k] = slot as u32;
        put(&mut words, block(slot), &head);
        put_variables(&mut words, machine, slot, &live.own);
    }
    put_variables(&mut words, machine, ENVIRONMENT, &environment(machine, &order));
    words
}

/// The environment's variables: those that no live routine owns.
fn environment(machine: &Machine, order: &[&Live]) -> Vec<Variable> {
    let owned: BTreeSet<Variable> = order.iter().flat_map(|live| &live.own).copied().collect();
    machine.cells.keys().copied().filter(|v| !owned.contains(v)).collect()
}

fn put_moment(words: &mut [u32], at: usize, moment: u64) {
    words[at] = moment as u32;
    words[at + 1] = (moment >> 32) as u32;
}

/// "value; waiting value; due moment (two words, 0 none); 0, 0"
fn put_variables(words: &mut [u32], machine: &Machine, slot: usize, own: &[Variable]) {
    for (i, variable) in own.iter().enumerate() {
        let at = block(slot) + VARIABLES + 6 * i;
        let cell = machine.cells[variable];
        let (due, waiting) = cell.waiting.unwrap_or((0, 0));
        words[at] = cell.value as u32;
        words[at + 1] = waiting as u32;
        put_moment(words, at + 2, due);
    }
}

/// "7 Is the machine memory the stopped form or, in the layout of docs/, one state of the walk
/// on this table": "the state, the slot of each record and the number of the child field that
/// made it determine every word".
pub fn machine_standing(words: &[u32], program: &Program) -> Option<Standing> {
    let words = words.get(..WORDS)?;
    if words[0] != 0 {
        let others = words[1..].iter().all(|&word| word == 0);
        let stopped = STOPS.contains(&words[0]) && others;
        return stopped.then_some(Standing::Stopped);
    }
    let mut reader = Reader::new(words, program)?;
    let machine = reader.machine()?;
    (machine_words(&machine, &reader.slots) == words).then_some(Standing::Running(machine))
}

/// Reads the live routines in walking order; `read` of them are read.
struct Reader<'a> {
    words: &'a [u32],
    program: &'a Program,
    slots: Vec<usize>,
    read: usize,
    machine: Machine,
}

impl<'a> Reader<'a> {
    /// "a tree (none after main's end) of at most 64 routines", each in a slot of its own.
    fn new(words: &'a [u32], program: &'a Program) -> Option<Reader<'a>> {
        let live = Some(words[3] as usize).filter(|&live| live <= MOST_LIVE)?;
        let slots: Vec<usize> = (0..live).map(|k| words[ORDER + k] as usize).collect();
        for (k, &slot) in slots.iter().enumerate() {
            if slot >= ENVIRONMENT || words[block(slot)] as usize != k + 1 {
                return None;
            }
        }
        let machine = Machine::without_main(program, moment(words, 1));
        Some(Reader { words, program, slots, read: 0, machine })
    }

    fn machine(&mut self) -> Option<Machine> {
        let environment: Vec<Variable> = self.machine.cells.keys().copied().collect();
        self.variables(ENVIRONMENT, &environment)?;
        if !self.slots.is_empty() {
            // "main's as the start does"
            let main = self.machine.call_main(self.program);
            self.machine.main = Some(self.live(main)?);
        }
        (self.read == self.slots.len()).then(|| self.machine.clone())
    }

    /// The block of the next routine that is still to be read.
    fn next(&self) -> Option<usize> {
        self.slots.get(self.read).map(|&slot| block(slot))
    }

    /// A routine as newly called is put where its block says: "each asleep at a `W` or at an
    /// `F` of which a child lives".
    fn live(&mut self, mut live: Live) -> Option<Live> {
        let slot = self.slots[self.read];
        live.at = self.words[block(slot) + 3] as usize;
        self.variables(slot, &live.own)?;
        self.read += 1;
        match self.program.routines[live.routine].code.get(live.at)? {
            Instruction::Wait { .. } => Some(live),
            Instruction::Fork { children } => {
                self.children(&mut live, children)?;
                (!live.children.is_empty()).then_some(live)
            }
            _ => None,
        }
    }

    /// "children and their names as that `F` binds them": the routines one level deeper that
    /// come next, their fields strictly rising.
    fn children(&mut self, parent: &mut Live, fields: &[Child]) -> Option<()> {
        let mut first = 0;
        while let Some(at) = self.next() {
            if self.words[at + 1] as usize != parent.level + 1 || parent.level == DEEPEST_LEVEL {
                break;
            }
            let field = self.words[at + 2] as usize;
            let child = fields.get(field).filter(|_| field >= first)?;
            let called = self.machine.call_child(self.program, parent, field, child);
            let child = self.live(called)?;
            parent.children.push(child);
            first = field + 1;
        }
        Some(())
    }

    /// "waiting writes due after the present moment"
    fn variables(&mut self, slot: usize, own: &[Variable]) -> Option<()> {
        for (i, variable) in own.iter().enumerate() {
            let at = block(slot) + VARIABLES + 6 * i;
            let due = moment(self.words, at + 2);
            if due != 0 && due <= self.machine.moment {
                return None;
            }
            let waiting = (due != 0).then(|| (due, self.words[at + 1] as i32));
            let cell = Cell { value: self.words[at] as i32, written: false, waiting };
            self.machine.cells.insert(*variable, cell);
        }
        Some(())
    }
}

fn moment(words: &[u32], at: usize) -> u64 {
    u64::from(words[at]) | u64::from(words[at + 1]) << 32
}

// ---- equal states

/// Do two machines stand for the same state of the walk? The numbers of the variables and of
/// the child fields belong to no state.
pub fn same_state(a: &Machine, b: &Machine, program: &Program) -> bool {
    match (a.stopped, b.stopped) {
        (None, None) => a.moment == b.moment && plain(a, program) == plain(b, program),
        (a, b) => a == b,
    }
}

type PlainCell = (i32, Option<(u64, i32)>);
type Record = (usize, usize, usize, Vec<Option<usize>>);

/// The routines in walking order (routine, level, instruction, variables of the names) and the
/// variables (value, waiting write), both with the variables renumbered: the environment's
/// first, then each routine's own.
fn plain(machine: &Machine, program: &Program) -> (Vec<Record>, Vec<Option<PlainCell>>) {
    let order = walking_order(&machine.main);
    let environment = (program.inputs + program.outputs) as Variable;
    let mut variables: Vec<Variable> = (0..environment).collect();
    order.iter().for_each(|live| variables.extend(&live.own));
    let pairs = variables.iter().enumerate();
    let renumbered: BTreeMap<Variable, usize> = pairs.map(|(k, &v)| (v, k)).collect();
    let record = |live: &&Live| {
        let names = live.names.iter().map(|v| renumbered.get(v).copied());
        (live.routine, live.level, live.at, names.collect())
    };
    let cell = |v: &Variable| machine.cells.get(v).map(|c| (c.value, c.waiting));
    (order.iter().map(record).collect(), variables.iter().map(cell).collect())
}
