//! A listing decoded once, when it is loaded, into the flat arrays that the plain queue engine runs over.

use crate::expression::{parts, Division, Operator, Part, SHORT};
use crate::listing::{Child, Instruction, Piece, Program, Routine};

/// 4,096 pieces and 512 instructions at most; a power of two, so that a masked place is in range.
pub const OPERATIONS: usize = 8_192;

/// A piece or an instruction. An instruction stands right after the pieces whose values it takes, so
/// that the code is one postfix array. An operator takes its right side along if that is a literal or a
/// name's value; and its left side too, if it takes the right one. A long expression, or one with
/// divisions, is one operation.
#[derive(Clone, Copy)]
pub enum Operation {
    Literal(i32),
    Value { name: u8 },
    Written { name: u8 },
    Two { operator: Operator },
    WithLiteral { operator: Operator, right: i32 },
    WithValue { operator: Operator, right: u8 },
    TwoValues { operator: Operator, left: u8, right: u8 },
    ValueAndLiteral { operator: Operator, left: u8, right: i32 },
    LiteralAndValue { operator: Operator, left: i32, right: u8 },
    Long { from: u16, count: u16 },
    Dividing { from: u16, count: u16 },
    Set { name: u8 },
    After { name: u8 },
    Unless { target: u32 },
    Go { target: u32 },
    Wait { from: u16, count: u8 },
    Fork { from: u16, count: u8 },
    End,
}

/// A child field: the callee's first operation and locals, and the field's arguments.
#[derive(Clone, Copy)]
pub struct Field {
    pub first: u32,
    pub from: u16,
    pub count: u8,
    pub locals: u8,
}

/// The caller's name that is passed.
#[derive(Clone, Copy)]
pub struct Argument {
    pub name: u8,
    pub by_reference: bool,
}

/// A decoded program. Main begins at operation 0.
pub struct Code {
    pub inputs: usize,
    pub outputs: usize,
    pub operations: Box<[Operation; OPERATIONS]>,
    pub waited: Vec<u8>,
    pub fields: Vec<Field>,
    pub arguments: Vec<Argument>,
    pub parts: Vec<Part>,
}

impl Code {
    pub fn new(program: &Program) -> Code {
        let mut decoder = Decoder {
            program,
            first: Vec::new(),
            operations: Vec::with_capacity(OPERATIONS),
            waited: Vec::new(),
            fields: Vec::new(),
            arguments: Vec::new(),
            parts: Vec::new(),
        };
        program.routines.iter().for_each(|routine| decoder.routine(routine));
        for field in &mut decoder.fields {
            field.first = decoder.first[field.first as usize];
        }
        decoder.operations.resize(OPERATIONS, Operation::End);
        Code {
            inputs: program.inputs,
            outputs: program.outputs,
            operations: decoder.operations.try_into().ok().expect("as many operations"),
            waited: decoder.waited,
            fields: decoder.fields,
            arguments: decoder.arguments,
            parts: decoder.parts,
        }
    }
}

struct Decoder<'a> {
    program: &'a Program,
    /// The first operation of each routine.
    first: Vec<u32>,
    operations: Vec<Operation>,
    waited: Vec<u8>,
    /// With the number of the callee in place of its first operation, until all routines are decoded.
    fields: Vec<Field>,
    arguments: Vec<Argument>,
    parts: Vec<Part>,
}

impl Decoder<'_> {
    fn routine(&mut self, routine: &Routine) {
        let first = self.operations.len();
        self.first.push(first as u32);
        let places: Vec<u32> = routine.code.iter().map(|instruction| self.instruction(instruction)).collect();
        for operation in &mut self.operations[first..] {
            if let Operation::Unless { target } | Operation::Go { target } = operation {
                *target = places[*target as usize];
            }
        }
    }

    /// Gives the place of its first operation. A jump keeps the number of the instruction it goes to,
    /// until its routine is decoded.
    fn instruction(&mut self, instruction: &Instruction) -> u32 {
        let place = self.operations.len() as u32;
        let operation = match instruction {
            Instruction::Set { name, value } => {
                self.expression(value);
                Operation::Set { name: *name as u8 }
            }
            Instruction::After { name, delay, value } => {
                self.expression(delay);
                self.expression(value);
                Operation::After { name: *name as u8 }
            }
            Instruction::Unless { test, target } => {
                self.expression(test);
                Operation::Unless { target: *target as u32 }
            }
            Instruction::Go { target } => Operation::Go { target: *target as u32 },
            Instruction::Wait { names } => {
                let from = self.waited.len() as u16;
                self.waited.extend(names.iter().map(|&name| name as u8));
                Operation::Wait { from, count: names.len() as u8 }
            }
            Instruction::Fork { children } => {
                let from = self.fields.len() as u16;
                children.iter().for_each(|child| self.field(child));
                Operation::Fork { from, count: children.len() as u8 }
            }
            Instruction::End => Operation::End,
        };
        self.operations.push(operation);
        place
    }

    fn field(&mut self, child: &Child) {
        let from = self.arguments.len() as u16;
        let callee = &self.program.routines[child.routine];
        for (&name, &by_reference) in child.names.iter().zip(&callee.by_reference) {
            self.arguments.push(Argument { name: name as u8, by_reference });
        }
        let (count, locals) = (child.names.len() as u8, callee.locals as u8);
        self.fields.push(Field { first: child.routine as u32, from, count, locals });
    }

    fn expression(&mut self, pieces: &[Piece]) {
        let divides = pieces.iter().any(|piece| Division::of_piece(piece).is_some());
        if divides || pieces.len() > SHORT {
            let (from, parts) = (self.parts.len() as u16, parts(pieces));
            let count = parts.len() as u16;
            let operation = if divides { Operation::Dividing { from, count } } else { Operation::Long { from, count } };
            self.operations.push(operation);
            return self.parts.extend(parts);
        }
        for piece in pieces {
            let operation = match (*piece, Operator::of_piece(piece)) {
                (_, Some(operator)) => self.operator(operator),
                (Piece::Literal(value), _) => Operation::Literal(value),
                (Piece::Value(name), _) => Operation::Value { name: name as u8 },
                (Piece::Written(name), _) => Operation::Written { name: name as u8 },
                _ => unreachable!("an operator"),
            };
            self.operations.push(operation);
        }
    }

    /// The operation before, if it is a literal or a name's value.
    fn taken(&mut self) -> Option<Operation> {
        self.operations.pop_if(|last| matches!(last, Operation::Literal(_) | Operation::Value { .. }))
    }

    /// An operator with the sides that it takes along. Each side of an operator is the operation before
    /// it, if it is one piece.
    fn operator(&mut self, operator: Operator) -> Operation {
        use Operation::*;
        let Some(right) = self.taken() else { return Two { operator } };
        match (self.taken(), right) {
            (Some(Value { name: left }), Value { name: right }) => TwoValues { operator, left, right },
            (Some(Value { name: left }), Literal(right)) => ValueAndLiteral { operator, left, right },
            (Some(Literal(left)), Value { name: right }) => LiteralAndValue { operator, left, right },
            (Some(Literal(left)), Literal(right)) => Literal(operator.of(left, right)),
            (_, Literal(right)) => WithLiteral { operator, right },
            (_, Value { name: right }) => WithValue { operator, right },
            _ => unreachable!("a literal or a name's value"),
        }
    }
}
