//! Random programs that load with number 0.

use crate::listing::{Child, Instruction, Piece, Program, Routine};
use crate::random::Random;

/// How a program is made.
struct Shape {
    /// Names of each routine, arguments and kinds being chosen before.
    names: Vec<usize>,
    kinds: Vec<Vec<bool>>,
    /// Forks lead to later routines only, so that every program of such forks has few levels.
    forward: bool,
}

/// A program that loads with number 0.
pub fn program(random: &mut Random) -> Program {
    match random.below(40) {
        0 => tower(random),
        1 => broad(random),
        2..=5 => halved(random),
        6..=9 => ordered(random),
        10..=12 => shares(random),
        13..=17 => timers(random),
        _ => common(random),
    }
}

fn common(random: &mut Random) -> Program {
    let inputs = random.below(4);
    let outputs = random.below(4);
    let routines = 1 + random.below(5);
    let longest = if random.once_in(10) { 24 } else { 8 };
    let mut kinds = vec![vec![true; inputs + outputs]];
    for _ in 1..routines {
        let arguments = random.below(5);
        kinds.push((0..arguments).map(|_| !random.once_in(4)).collect());
    }
    let locals: Vec<usize> = kinds.iter().map(|k| random.below(4).min(16 - k.len())).collect();
    let names = kinds.iter().zip(&locals).map(|(k, l)| k.len() + l).collect();
    let shape = Shape { names, kinds, forward: !random.once_in(8) };
    let routines = (0..routines).map(|r| {
        let length = 1 + random.below(longest);
        Routine { by_reference: shape.kinds[r].clone(), locals: locals[r], code: code(random, &shape, r, length) }
    });
    Program { inputs, outputs, routines: routines.collect() }
}

fn code(random: &mut Random, shape: &Shape, r: usize, length: usize) -> Vec<Instruction> {
    let mut code: Vec<Instruction> = (0..length).map(|at| instruction(random, shape, r, at, length + 1)).collect();
    // Most loops begin at the first line or at a wait, where they sleep.
    let sleeps = code.iter().position(|i| matches!(i, Instruction::Wait { .. }));
    code.push(match (random.below(3), sleeps) {
        (0, _) => Instruction::End,
        (1, Some(at)) => Instruction::Go { target: at },
        (1, None) => Instruction::End,
        _ if random.once_in(12) => Instruction::Go { target: random.below(length + 1) },
        (_, Some(_)) => Instruction::Go { target: 0 },
        _ => Instruction::End,
    });
    code
}

fn instruction(random: &mut Random, shape: &Shape, r: usize, at: usize, length: usize) -> Instruction {
    let names = shape.names[r];
    let last = shape.names.len() - 1;
    match random.below(20) {
        0..=4 if names > 0 => Instruction::Set { name: random.below(names), value: expression(random, names) },
        5..=8 if names > 0 => Instruction::After {
            name: random.below(names),
            delay: delay(random, names),
            value: expression(random, names),
        },
        9..=10 => Instruction::Unless { test: expression(random, names), target: target(random, at, length) },
        11 if random.once_in(2) => Instruction::Go { target: target(random, at, length) },
        12..=16 if names > 0 => Instruction::Wait {
            names: (0..1 + random.below(4).min(random.below(4))).map(|_| random.below(names)).collect(),
        },
        17..=18 if !shape.forward || r < last => fork(random, shape, r),
        19 if random.once_in(4) => Instruction::End,
        _ if names > 0 => Instruction::Wait { names: vec![random.below(names)] },
        _ => Instruction::Unless { test: expression(random, names), target: target(random, at, length) },
    }
}

/// Mostly a line further on.
fn target(random: &mut Random, at: usize, length: usize) -> usize {
    if random.once_in(10) {
        random.below(length)
    } else {
        at + 1 + random.below(length - at - 1)
    }
}

fn fork(random: &mut Random, shape: &Shape, r: usize) -> Instruction {
    let children = 1 + if random.once_in(6) { random.below(8) } else { random.below(3) };
    let all = shape.names.len();
    let children = (0..children).map(|_| {
        let routine = if shape.forward { r + 1 + random.below(all - r - 1) } else { random.below(all) };
        child(random, shape, r, routine)
    });
    let children: Vec<Option<Child>> = children.collect();
    match children.into_iter().collect() {
        Some(children) => Instruction::Fork { children },
        None => Instruction::End,
    }
}

/// None where the child wants names and the caller has none.
fn child(random: &mut Random, shape: &Shape, r: usize, routine: usize) -> Option<Child> {
    let names = shape.names[r];
    let arguments = shape.kinds[routine].len();
    if names == 0 && arguments > 0 {
        return None;
    }
    Some(Child { routine, names: (0..arguments).map(|_| random.below(names)).collect() })
}

fn delay(random: &mut Random, names: usize) -> Vec<Piece> {
    match random.below(40) {
        0 => vec![Piece::Literal(i32::MAX)],
        1 => expression(random, names),
        2 => division(random, names),
        3..=8 => long_delay(random),
        _ => vec![Piece::Literal(1 + random.below(9) as i32)],
    }
}

/// Long enough that calls come before the moment due.
fn long_delay(random: &mut Random) -> Vec<Piece> {
    vec![Piece::Literal(1 + random.below(40) as i32)]
}

/// A postfix expression of up to 8 held values.
fn expression(random: &mut Random, names: usize) -> Vec<Piece> {
    let values = match random.below(10) {
        0..=4 => 1,
        5..=7 => 2,
        8 => 3,
        _ => 1 + random.below(9),
    };
    let (mut pieces, mut held, mut left) = (Vec::new(), 0, values);
    while left > 0 || held > 1 {
        if left > 0 && held < 8 && (held < 2 || random.once_in(2)) {
            pieces.push(operand(random, names));
            held += 1;
            left -= 1;
        } else {
            let sign = if random.once_in(6) { divided(random, &mut pieces) } else { *random.pick(&SIGNS) };
            pieces.push(sign);
            held -= 1;
        }
    }
    pieces
}

/// The signs that always have a value.
const SIGNS: [Piece; 4] = [Piece::Plus, Piece::Minus, Piece::Times, Piece::Less];
const DIVISIONS: [Piece; 2] = [Piece::Quotient, Piece::Remainder];

/// A division of what is held. Mostly, a divisor of one piece is made a literal other than 0.
fn divided(random: &mut Random, pieces: &mut [Piece]) -> Piece {
    if let Some(last @ (Piece::Literal(_) | Piece::Value(_) | Piece::Written(_))) = pieces.last_mut() {
        if !random.once_in(5) {
            *last = Piece::Literal(*random.pick(&[-1, -1, 1, 2, -2, 3, 7, -10, 100, i32::MAX, i32::MIN]));
        }
    }
    *random.pick(&DIVISIONS)
}

/// A division alone, its divisor 0 now and then; or one whose value does not matter.
fn division(random: &mut Random, names: usize) -> Vec<Piece> {
    let dividend = if random.once_in(3) { Piece::Literal(i32::MIN) } else { operand(random, names) };
    let mut pieces = vec![dividend, operand(random, names)];
    if random.once_in(6) {
        pieces[1] = Piece::Literal(0);
    }
    let sign = divided(random, &mut pieces);
    pieces.push(sign);
    match random.below(8) {
        0 => pieces.extend([Piece::Literal(0), Piece::Times]),
        1 => pieces.extend([operand(random, names), Piece::Less]),
        2 => pieces.extend([Piece::Literal(i32::MIN), Piece::Literal(-1), *random.pick(&DIVISIONS), Piece::Plus]),
        _ => {}
    }
    pieces
}

/// Divisions by what the inputs say, in every instruction that has an expression.
fn shares(random: &mut Random) -> Program {
    let (inputs, outputs) = (1 + random.below(2), 1 + random.below(2));
    let arguments = inputs + outputs;
    let names = arguments + random.below(2);
    let mut code = vec![Instruction::Wait { names: (0..inputs).collect() }];
    let lines = 2 + random.below(5);
    for at in 1..lines {
        let (name, value) = (random.below(names), division(random, names));
        code.push(match random.below(4) {
            0 => Instruction::Set { name, value },
            1 => Instruction::Unless { test: value, target: target(random, at, lines + 1) },
            2 => Instruction::After { name, delay: division(random, names), value },
            _ => Instruction::After { name, delay: vec![Piece::Literal(random.below(4).min(2) as i32)], value },
        });
    }
    code.push(Instruction::Go { target: 0 });
    let main = Routine { by_reference: vec![true; arguments], locals: names - arguments, code };
    Program { inputs, outputs, routines: vec![main] }
}

/// Waiting writes on the inputs' own names, by main or by children in which several names may be one variable.
fn timers(random: &mut Random) -> Program {
    let most = if random.once_in(2) { 12 } else { 3 };
    let (inputs, outputs) = (1 + random.below(most), 1 + random.below(2));
    let arguments = inputs + outputs;
    let mut main = Routine { by_reference: vec![true; arguments], locals: 0, code: Vec::new() };
    let children = random.below(6).saturating_sub(2);
    if children == 0 {
        main.code = timer(random, inputs, arguments);
        return Program { inputs, outputs, routines: vec![main] };
    }
    let mut routines = vec![main];
    let mut fields = Vec::new();
    for routine in 1..=children {
        let names = 1 + random.below(5);
        let by_reference = (0..names).map(|_| !random.once_in(6)).collect();
        routines.push(Routine { by_reference, locals: random.below(2), code: timer(random, names, names) });
        fields.push(Child { routine, names: (0..names).map(|_| input_mostly(random, inputs, arguments)).collect() });
    }
    routines[0].code = vec![Instruction::Fork { children: fields }, Instruction::End];
    Program { inputs, outputs, routines }
}

/// Timers set before the first wait, and others set anew after each; of `names` names the first are inputs.
fn timer(random: &mut Random, inputs: usize, names: usize) -> Vec<Instruction> {
    let first = if random.once_in(3) { random.below(inputs + 1) } else { inputs };
    let mut code: Vec<Instruction> = (0..first).map(|name| set_timer(random, name, names)).collect();
    let wait = code.len();
    code.push(Instruction::Wait {
        names: (0..1 + random.below(4)).map(|_| input_mostly(random, inputs, names)).collect(),
    });
    for _ in 0..random.below(4) {
        code.push(match random.below(4) {
            0 => Instruction::Set { name: random.below(names), value: expression(random, names) },
            1 => Instruction::Unless { test: expression(random, names), target: wait },
            _ => {
                let name = input_mostly(random, inputs, names);
                set_timer(random, name, names)
            }
        });
    }
    code.push(if random.once_in(12) { Instruction::End } else { Instruction::Go { target: wait } });
    code
}

fn set_timer(random: &mut Random, name: usize, names: usize) -> Instruction {
    Instruction::After { name, delay: long_delay(random), value: vec![operand(random, names)] }
}

fn input_mostly(random: &mut Random, inputs: usize, names: usize) -> usize {
    let below = if random.once_in(4) { names } else { inputs };
    random.below(below)
}

fn operand(random: &mut Random, names: usize) -> Piece {
    match random.below(4) {
        0 | 1 if names > 0 => Piece::Value(random.below(names)),
        2 if names > 0 => Piece::Written(random.below(names)),
        _ => Piece::Literal(random.value()),
    }
}

/// Main is a fork of two and an `E`, as the halves of document 01.
fn halved(random: &mut Random) -> Program {
    let mut program = common(random);
    let arguments = program.inputs + program.outputs;
    let names = arguments + program.routines[0].locals;
    let first = Routine { by_reference: vec![true; names / 2], ..program.routines[0].clone() };
    let second = Routine { by_reference: vec![true; names - names / 2], ..program.routines[0].clone() };
    let count = program.routines.len();
    program.routines.push(refit(random, first));
    program.routines.push(refit(random, second));
    let fields = vec![
        Child { routine: count, names: (0..names / 2).collect() },
        Child { routine: count + 1, names: (names / 2..names).collect() },
    ];
    program.routines[0].code = vec![Instruction::Fork { children: fields }, Instruction::End];
    program
}

/// A routine with code anew, of its own names, without forks.
fn refit(random: &mut Random, routine: Routine) -> Routine {
    let shape = Shape { names: vec![routine.names()], kinds: vec![routine.by_reference.clone()], forward: true };
    let length = 1 + random.below(8);
    Routine { code: code(random, &shape, 0, length), ..routine }
}

/// Forks one below the other: 8 to 12 levels below main.
fn tower(random: &mut Random) -> Program {
    let levels = 8 + random.below(5);
    let (inputs, outputs) = if random.once_in(2) { (1, 0) } else { (0, 1) };
    let wait = Instruction::Wait { names: vec![0] };
    let routines = (0..=levels).map(|r| {
        let children = 1 + random.below(2);
        let field = Child { routine: r + 1, names: vec![0] };
        let mut code = vec![Instruction::Fork { children: vec![field; children] }, Instruction::End];
        if r == levels {
            code = vec![wait.clone(), Instruction::Set { name: 0, value: vec![Piece::Value(0)] }, Instruction::End];
        }
        Routine { by_reference: vec![true], locals: random.below(3), code }
    });
    let mut program = Program { inputs, outputs, routines: routines.collect() };
    wait_first(random, &mut program);
    program
}

/// Forks beside each other: 57 to 73 live routines.
fn broad(random: &mut Random) -> Program {
    let second = 7 + random.below(2);
    let first = 7 + random.below(2);
    let wait = vec![
        Instruction::Wait { names: vec![0] },
        Instruction::Set { name: 1, value: vec![Piece::Value(1), Piece::Literal(1), Piece::Plus] },
        Instruction::End,
    ];
    let field = |routine| Child { routine, names: vec![0, 1] };
    let again = Instruction::Go { target: 0 };
    let routine = |code| Routine { by_reference: vec![true, true], locals: 0, code };
    let routines = vec![
        routine(vec![Instruction::Fork { children: vec![field(1); first] }, again]),
        routine(vec![Instruction::Fork { children: vec![field(2); second] }, Instruction::End]),
        routine(wait),
    ];
    let mut program = Program { inputs: 1, outputs: 1, routines };
    wait_first(random, &mut program);
    program
}

/// Mostly, main waits on name 0 before its first line, so that an instant meets what follows.
fn wait_first(random: &mut Random, program: &mut Program) {
    if !random.once_in(3) {
        program.routines[0].code.insert(0, Instruction::Wait { names: vec![0] });
    }
}

/// A tree of forks whose routines fold their own number into output 1, so that its value shows
/// the order in which they ran.
fn ordered(random: &mut Random) -> Program {
    let mut routines = Vec::new();
    let most = 2 + random.below(62);
    let deepest = 1 + random.below(9);
    add_ordered(random, &mut routines, most, deepest);
    Program { inputs: 1, outputs: 1, routines }
}

/// A routine and those below it; returns how many live when all of them are awake or asleep.
fn add_ordered(random: &mut Random, routines: &mut Vec<Routine>, most: usize, deepest: usize) -> usize {
    let own = routines.len();
    routines.push(Routine { by_reference: vec![true, true], locals: 0, code: Vec::new() });
    let mut live = 1;
    let mut children = Vec::new();
    if deepest > 0 {
        for _ in 0..random.below(9) {
            if live < most && routines.len() < 64 {
                children.push(Child { routine: routines.len(), names: vec![0, 1] });
                live += add_ordered(random, routines, most - live, deepest - 1);
            }
        }
    }
    let fold = Instruction::Set {
        name: 1,
        value: vec![Piece::Value(1), Piece::Literal(31), Piece::Times, Piece::Literal(own as i32), Piece::Plus],
    };
    let wait = Instruction::Wait { names: vec![random.below(4).min(1) ^ 1; 1 + random.below(2)] };
    let code = &mut routines[own].code;
    if children.is_empty() || random.once_in(3) {
        code.extend([wait, fold.clone()]);
    }
    if !children.is_empty() {
        code.extend([Instruction::Fork { children }, fold]);
    }
    code.push(if random.once_in(2) { Instruction::End } else { Instruction::Go { target: 0 } });
    live
}
