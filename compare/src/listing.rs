//! The listing: its form, its limits and what its lines point to (questions 2 to 5).

/// "listing 49,152 bytes"
pub const LONGEST_FILE: usize = 49_152;
/// "64 routines"
const MOST_ROUTINES: usize = 64;
/// "512 instructions in all"
const MOST_INSTRUCTIONS: usize = 512;
/// "16 names a routine"
const MOST_NAMES: usize = 16;
/// "4,096 pieces after the letters of instruction lines"
const MOST_PIECES: usize = 4_096;
/// "It leaves one value and never holds more than 8"
const MOST_HELD: usize = 8;

/// A piece of an expression: "`#v` (a signed 32-bit literal), `n` (a name's value),
/// `@n` (1 if it was written in this instant, else 0), `+ - * <`". "Expressions gain `/` and `%`"
/// (document 02, Change 2).
#[derive(Clone, Copy, Debug, PartialEq)]
pub enum Piece {
    Literal(i32),
    Value(usize),
    Written(usize),
    Plus,
    Minus,
    Times,
    Less,
    Quotient,
    Remainder,
}

/// "each field is a routine number and then its arguments, as names of the caller"
#[derive(Clone, Debug, PartialEq)]
pub struct Child {
    pub routine: usize,
    pub names: Vec<usize>,
}

#[derive(Clone, Debug, PartialEq)]
pub enum Instruction {
    /// "`S|n|e` writes expression e to name n."
    Set { name: usize, value: Vec<Piece> },
    /// "`A|n|d|e` puts a waiting write of e on n, d milliseconds from now"
    After { name: usize, delay: Vec<Piece>, value: Vec<Piece> },
    /// "`U|e|k` goes to instruction k if e is 0."
    Unless { test: Vec<Piece>, target: usize },
    /// "`G|k` goes to k."
    Go { target: usize },
    /// "`W|n n ..` waits on 1 to 4 names."
    Wait { names: Vec<usize> },
    /// "`F|c|c..` forks 1 to 8 children"
    Fork { children: Vec<Child> },
    /// "`E` ends the routine."
    End,
}

/// "`R|kinds|locals` opens one: kinds has a letter per argument"
#[derive(Clone, Debug, PartialEq)]
pub struct Routine {
    pub by_reference: Vec<bool>,
    pub locals: usize,
    pub code: Vec<Instruction>,
}

impl Routine {
    /// "Names in a routine are its arguments, then its locals, numbered from 0."
    pub fn names(&self) -> usize {
        self.by_reference.len().saturating_add(self.locals)
    }
}

/// A listing: "`P|i|o` gives i inputs and o outputs. Then come the routines".
#[derive(Clone, Debug, PartialEq)]
pub struct Program {
    pub inputs: usize,
    pub outputs: usize,
    pub routines: Vec<Routine>,
}

/// The number of the question that is answered no, and the line.
#[derive(Clone, Copy, Debug, PartialEq)]
pub struct Refusal {
    pub number: u32,
    pub place: u64,
}

fn no<T>(number: u32, place: usize) -> Result<T, Refusal> {
    let place = place as u64;
    Err(Refusal { number, place })
}

/// "The loader puts each question to the whole listing before the next".
pub fn load(text: &[u8]) -> Result<Program, Refusal> {
    let lines = question_2(text)?;
    question_3(text, &lines)?;
    let (program, places) = gather(lines);
    question_4(&program, &places)?;
    question_5(&program, &places)?;
    Ok(program)
}

// ---- figures and literals

/// "Figures are decimal without leading zeros."
fn is_figure(text: &[u8]) -> bool {
    match text {
        [] => false,
        [b'0', _, ..] => false,
        _ => text.iter().all(u8::is_ascii_digit),
    }
}

/// A figure of any length. One too large for a usize stands for the largest usize, which
/// no limit lets through and nothing in a listing is numbered with.
fn figure(text: &[u8]) -> Option<usize> {
    let add = |sum: usize, digit: &u8| {
        let tens = sum.saturating_mul(10);
        tens.saturating_add(usize::from(digit - b'0'))
    };
    is_figure(text).then(|| text.iter().fold(0, add))
}

/// A figure below 2 to the `bits` (at most 64).
pub fn figure_below(text: &[u8], bits: u32) -> Option<u64> {
    if !is_figure(text) || text.len() > 20 {
        return None;
    }
    let add = |sum: u128, digit: &u8| sum * 10 + u128::from(digit - b'0');
    let sum = text.iter().fold(0, add);
    (sum < 1 << bits).then_some(sum as u64)
}

/// "A minus stands only before a literal, never `-0`." The literal has signed 32 bits.
pub fn literal(text: &[u8]) -> Option<i32> {
    let digits = text.strip_prefix(b"-");
    let size = figure_below(digits.unwrap_or(text), 32)? as i64;
    match digits {
        Some(_) if size == 0 => None,
        Some(_) => i32::try_from(-size).ok(),
        None => i32::try_from(size).ok(),
    }
}

// ---- question 2: the form

enum Line {
    Opening { inputs: usize, outputs: usize },
    Routine(Routine),
    Code(Instruction),
}

/// "Has every line its form, and does the last end in a line feed? An empty listing: place 1."
fn question_2(text: &[u8]) -> Result<Vec<Line>, Refusal> {
    let mut lines = Vec::new();
    for closed in text.split_inclusive(|&byte| byte == b'\n') {
        let place = lines.len() + 1;
        let line = closed.strip_suffix(b"\n").and_then(form);
        match line.filter(|line| stands(line, place)) {
            Some(line) => lines.push(line),
            None => return no(2, place),
        }
    }
    if lines.is_empty() {
        return no(2, 1);
    }
    Ok(lines)
}

/// "By form `P` stands on line 1 only, and line 2, if any, is an `R`." ("The file begins
/// with the bytes `P`, tab")
fn stands(line: &Line, place: usize) -> bool {
    match line {
        Line::Opening { .. } => place == 1,
        Line::Routine(_) => place >= 2,
        Line::Code(_) => place >= 3,
    }
}

/// "one record a line, fields parted by one tab"
fn form(line: &[u8]) -> Option<Line> {
    let fields: Vec<&[u8]> = line.split(|&byte| byte == b'\t').collect();
    match fields.as_slice() {
        [b"P", inputs, outputs] => Some(Line::Opening { inputs: figure(inputs)?, outputs: figure(outputs)? }),
        [b"R", letters, locals] => {
            Some(Line::Routine(Routine { by_reference: kinds(letters)?, locals: figure(locals)?, code: Vec::new() }))
        }
        _ => instruction(&fields).map(Line::Code),
    }
}

/// "`r` by reference or `v` by value, or is `-` for none"
fn kinds(letters: &[u8]) -> Option<Vec<bool>> {
    let kind = |letter: &u8| match letter {
        b'r' => Some(true),
        b'v' => Some(false),
        _ => None,
    };
    match letters {
        [] => None,
        b"-" => Some(Vec::new()),
        _ => letters.iter().map(kind).collect(),
    }
}

/// "Each later line is one instruction"
fn instruction(fields: &[&[u8]]) -> Option<Instruction> {
    let found = match fields {
        [b"S", name, value] => Instruction::Set { name: figure(name)?, value: expression(value)? },
        [b"A", name, delay, value] => {
            Instruction::After { name: figure(name)?, delay: expression(delay)?, value: expression(value)? }
        }
        [b"U", test, target] => Instruction::Unless { test: expression(test)?, target: figure(target)? },
        [b"G", target] => Instruction::Go { target: figure(target)? },
        [b"W", names] => Instruction::Wait { names: figures(names).filter(|names| names.len() <= 4)? },
        [b"F", children @ ..] if (1..=8).contains(&children.len()) => {
            Instruction::Fork { children: children.iter().map(|field| child(field)).collect::<Option<_>>()? }
        }
        [b"E"] => Instruction::End,
        _ => return None,
    };
    Some(found)
}

/// "pieces inside a field by one space"
fn pieces(field: &[u8]) -> impl Iterator<Item = &[u8]> {
    field.split(|&byte| byte == b' ')
}

fn figures(field: &[u8]) -> Option<Vec<usize>> {
    pieces(field).map(figure).collect()
}

fn child(field: &[u8]) -> Option<Child> {
    let mut names = figures(field)?;
    let routine = names.remove(0);
    Some(Child { routine, names })
}

/// "It leaves one value and never holds more than 8; both belong to its form."
fn expression(field: &[u8]) -> Option<Vec<Piece>> {
    let found: Vec<Piece> = pieces(field).map(piece).collect::<Option<_>>()?;
    let mut held: usize = 0;
    for piece in &found {
        held = match piece {
            Piece::Literal(_) | Piece::Value(_) | Piece::Written(_) => held + 1,
            _ if held >= 2 => held - 1,
            _ => return None,
        };
        if held > MOST_HELD {
            return None;
        }
    }
    (held == 1).then_some(found)
}

fn piece(text: &[u8]) -> Option<Piece> {
    match text {
        b"+" => Some(Piece::Plus),
        b"-" => Some(Piece::Minus),
        b"*" => Some(Piece::Times),
        b"<" => Some(Piece::Less),
        b"/" => Some(Piece::Quotient),
        b"%" => Some(Piece::Remainder),
        [b'#', value @ ..] => literal(value).map(Piece::Literal),
        [b'@', name @ ..] => figure(name).map(Piece::Written),
        name => figure(name).map(Piece::Value),
    }
}

// ---- question 3: the limits

/// "Limits (the place is the line that passes one)"
fn question_3(text: &[u8], lines: &[Line]) -> Result<(), Refusal> {
    let (mut bytes, mut routines, mut instructions, mut pieces) = (0, 0, 0, 0);
    let closed = text.split_inclusive(|&byte| byte == b'\n');
    for (index, (line, closed)) in lines.iter().zip(closed).enumerate() {
        let mut names = 0;
        bytes += closed.len();
        match line {
            Line::Opening { .. } => {}
            Line::Routine(routine) => {
                routines += 1;
                names = routine.names();
            }
            Line::Code(instruction) => {
                instructions += 1;
                pieces += pieces_after_letter(instruction);
            }
        }
        let met = bytes <= LONGEST_FILE
            && routines <= MOST_ROUTINES
            && instructions <= MOST_INSTRUCTIONS
            && names <= MOST_NAMES
            && pieces <= MOST_PIECES;
        if !met {
            return no(3, index + 1);
        }
    }
    Ok(())
}

/// "pieces after the letters of instruction lines": all pieces of all later fields.
fn pieces_after_letter(instruction: &Instruction) -> usize {
    match instruction {
        Instruction::Set { value, .. } => 1 + value.len(),
        Instruction::After { delay, value, .. } => 1 + delay.len() + value.len(),
        Instruction::Unless { test, .. } => test.len() + 1,
        Instruction::Go { .. } => 1,
        Instruction::Wait { names } => names.len(),
        Instruction::Fork { children } => children.iter().map(|c| 1 + c.names.len()).sum(),
        Instruction::End => 0,
    }
}

/// "Then come the routines, numbered from 0": the program and the line of each `R`.
fn gather(lines: Vec<Line>) -> (Program, Vec<usize>) {
    let mut places = Vec::new();
    let mut program = Program { inputs: 0, outputs: 0, routines: Vec::new() };
    for (index, line) in lines.into_iter().enumerate() {
        match line {
            Line::Opening { inputs, outputs } => {
                program.inputs = inputs;
                program.outputs = outputs;
            }
            Line::Routine(routine) => {
                program.routines.push(routine);
                places.push(index + 1);
            }
            Line::Code(instruction) => {
                let routine = program.routines.last_mut();
                routine.expect("line 2 is an R").code.push(instruction);
            }
        }
    }
    (program, places)
}

// ---- questions 4 and 5

/// "Does every name, routine, jump and argument count point to something there? Is main as
/// stated (place: its `R`, or 1 without one)?"
fn question_4(program: &Program, places: &[usize]) -> Result<(), Refusal> {
    match program.routines.first() {
        None => return no(4, 1),
        Some(main) if !main_as_stated(program, main) => return no(4, places[0]),
        Some(_) => {}
    }
    for (routine, place) in program.routines.iter().zip(places) {
        for (index, instruction) in routine.code.iter().enumerate() {
            if !points(program, routine, instruction) {
                return no(4, place + 1 + index);
            }
        }
    }
    Ok(())
}

/// "Main has i + o arguments, all `r`"
fn main_as_stated(program: &Program, main: &Routine) -> bool {
    let arguments = program.inputs.saturating_add(program.outputs);
    main.by_reference.len() == arguments && main.by_reference.iter().all(|&kind| kind)
}

fn points(program: &Program, routine: &Routine, instruction: &Instruction) -> bool {
    let name = |name: &usize| *name < routine.names();
    let all = |pieces: &[Piece]| {
        pieces.iter().all(|piece| match piece {
            Piece::Value(n) | Piece::Written(n) => name(n),
            _ => true,
        })
    };
    let jump = |target: &usize| *target < routine.code.len();
    match instruction {
        Instruction::Set { name: n, value } => name(n) && all(value),
        Instruction::After { name: n, delay, value } => name(n) && all(delay) && all(value),
        Instruction::Unless { test, target } => all(test) && jump(target),
        Instruction::Go { target } => jump(target),
        Instruction::Wait { names } => names.iter().all(name),
        Instruction::Fork { children } => children.iter().all(|child| {
            let forked = program.routines.get(child.routine);
            let counted = forked.is_some_and(|r| r.by_reference.len() == child.names.len());
            counted && child.names.iter().all(name)
        }),
        Instruction::End => true,
    }
}

/// "Has every routine a line (place: its `R`), the last being `E` or `G`?"
fn question_5(program: &Program, places: &[usize]) -> Result<(), Refusal> {
    for (routine, place) in program.routines.iter().zip(places) {
        match routine.code.last() {
            Some(Instruction::End | Instruction::Go { .. }) => {}
            _ => return no(5, place + routine.code.len()),
        }
    }
    Ok(())
}

// ---- the text of a listing

/// The listing of a program; no other text stands for the same program.
pub fn text(program: &Program) -> Vec<u8> {
    let mut text = format!("P\t{}\t{}\n", program.inputs, program.outputs);
    for routine in &program.routines {
        let letter = |&kind: &bool| if kind { 'r' } else { 'v' };
        let letters: String = routine.by_reference.iter().map(letter).collect();
        let letters = if letters.is_empty() { "-" } else { &letters };
        text += &format!("R\t{}\t{}\n", letters, routine.locals);
        for instruction in &routine.code {
            text += &line_text(instruction);
            text.push('\n');
        }
    }
    text.into_bytes()
}

fn line_text(instruction: &Instruction) -> String {
    match instruction {
        Instruction::Set { name, value } => format!("S\t{name}\t{}", expression_text(value)),
        Instruction::After { name, delay, value } => {
            let (delay, value) = (expression_text(delay), expression_text(value));
            format!("A\t{name}\t{delay}\t{value}")
        }
        Instruction::Unless { test, target } => format!("U\t{}\t{target}", expression_text(test)),
        Instruction::Go { target } => format!("G\t{target}"),
        Instruction::Wait { names } => format!("W\t{}", spaced(names.iter())),
        Instruction::Fork { children } => children
            .iter()
            .fold("F".to_string(), |line, c| line + "\t" + &spaced(std::iter::once(&c.routine).chain(&c.names))),
        Instruction::End => "E".to_string(),
    }
}

fn expression_text(pieces: &[Piece]) -> String {
    spaced(pieces.iter().map(|piece| match piece {
        Piece::Literal(value) => format!("#{value}"),
        Piece::Value(name) => format!("{name}"),
        Piece::Written(name) => format!("@{name}"),
        Piece::Plus => "+".to_string(),
        Piece::Minus => "-".to_string(),
        Piece::Times => "*".to_string(),
        Piece::Less => "<".to_string(),
        Piece::Quotient => "/".to_string(),
        Piece::Remainder => "%".to_string(),
    }))
}

fn spaced<T: ToString>(pieces: impl Iterator<Item = T>) -> String {
    let pieces: Vec<String> = pieces.map(|piece| piece.to_string()).collect();
    pieces.join(" ")
}
