//! Expressions of the plain queue engine: operators, the values held, and long expressions. A short
//! expression is one jump a piece or pair of pieces, which a processor foresees while they are few; a
//! long one is a loop whose turns have no such jump. One with divisions is such a loop of its own.

use crate::listing::Piece;

/// Places for the values that an expression holds: a delay and 8 more are in use; as many as a byte
/// numbers, so that any byte is in range.
pub const HELD: usize = 256;
/// An expression of more pieces is a long one.
pub const SHORT: usize = 14;

#[derive(Clone, Copy, PartialEq)]
pub enum Operator {
    Plus,
    Minus,
    Times,
    Less,
}

impl Operator {
    pub fn of_piece(piece: &Piece) -> Option<Operator> {
        match piece {
            Piece::Literal(_) | Piece::Value(_) | Piece::Written(_) | Piece::Quotient | Piece::Remainder => None,
            Piece::Plus => Some(Operator::Plus),
            Piece::Minus => Some(Operator::Minus),
            Piece::Times => Some(Operator::Times),
            Piece::Less => Some(Operator::Less),
        }
    }

    /// Without a branch.
    #[inline(always)]
    pub fn of(self, left: i32, right: i32) -> i32 {
        let sign = -((self == Operator::Minus) as i32);
        let sum = left.wrapping_add((right ^ sign).wrapping_sub(sign));
        let other = if self == Operator::Times { left.wrapping_mul(right) } else { (left < right) as i32 };
        if self as u8 <= Operator::Minus as u8 {
            sum
        } else {
            other
        }
    }
}

/// Stands apart from the operators, which cannot fail.
#[derive(Clone, Copy, PartialEq)]
pub enum Division {
    Quotient,
    Remainder,
}

impl Division {
    pub fn of_piece(piece: &Piece) -> Option<Division> {
        match piece {
            Piece::Quotient => Some(Division::Quotient),
            Piece::Remainder => Some(Division::Remainder),
            _ => None,
        }
    }

    /// The processor's division gives both.
    #[inline(always)]
    pub fn of(self, left: i32, right: i32) -> Option<i32> {
        if right == 0 {
            return None;
        }
        let (quotient, remainder) = (left.wrapping_div(right), left.wrapping_rem(right));
        Some(if self == Division::Quotient { quotient } else { remainder })
    }
}

/// The values that an expression holds; the last one stands apart.
pub struct Held<'a> {
    below: &'a mut [i32; HELD],
    depth: u8,
    top: i32,
}

impl Held<'_> {
    pub fn new(below: &mut [i32; HELD]) -> Held<'_> {
        Held { below, depth: 0, top: 0 }
    }

    #[inline(always)]
    pub fn push(&mut self, value: i32) {
        self.below[self.depth as usize] = self.top;
        self.depth = self.depth.wrapping_add(1);
        self.top = value;
    }

    #[inline(always)]
    fn pop(&mut self) -> i32 {
        self.depth = self.depth.wrapping_sub(1);
        std::mem::replace(&mut self.top, self.below[self.depth as usize])
    }

    /// Puts the last value and one more together.
    #[inline(always)]
    pub fn with(&mut self, operator: Operator, right: i32) {
        self.top = operator.of(self.top, right);
    }

    /// Puts the last two values together.
    #[inline(always)]
    pub fn two(&mut self, operator: Operator) {
        let right = self.pop();
        self.with(operator, right);
    }

    /// The value of an expression; none is held any more.
    #[inline(always)]
    pub fn value(&mut self) -> i32 {
        self.depth = 0;
        self.top
    }

    #[inline(always)]
    pub fn value_and_delay(&mut self) -> (i32, i32) {
        let delay = self.below[self.depth.wrapping_sub(1) as usize];
        (self.value(), delay)
    }

    /// A long expression without divisions. `read` gives a name's value, and whether it was written in
    /// this instant.
    #[inline(always)]
    pub fn long(&mut self, parts: &[Part], read: impl Fn(u8) -> (i32, bool)) {
        let done = self.long_parts::<false>(parts, read);
        debug_assert!(done.is_some());
    }

    #[inline(always)]
    fn long_parts<const DIVIDES: bool>(&mut self, parts: &[Part], read: impl Fn(u8) -> (i32, bool)) -> Option<()> {
        for part in parts {
            let value = if part.source == Source::Held {
                self.pop()
            } else if part.source == Source::Literal {
                part.literal
            } else {
                let (value, written) = read(part.name);
                if part.source == Source::Value {
                    value
                } else {
                    written as i32
                }
            };
            match (part.operator, part.division) {
                (Some(operator), _) => self.with(operator, value),
                (None, Some(division)) if DIVIDES => self.top = division.of(self.top, value)?,
                (None, _) => self.push(value),
            }
        }
        Some(())
    }
}

/// The value of an expression with divisions, in room of its own, so that the values that another
/// holds can stay in registers; none if a divisor is 0.
#[inline(never)]
pub fn dividing(room: &mut [i32; HELD], parts: &[Part], read: impl Fn(u8) -> (i32, bool)) -> Option<i32> {
    let mut held = Held::new(room);
    held.long_parts::<true>(parts, read)?;
    Some(held.top)
}

#[derive(Clone, Copy, PartialEq)]
pub enum Source {
    Held,
    Literal,
    Value,
    Written,
}

/// A part of a long expression: an operand, an operator or a division, or an operand and what comes
/// after it of these.
#[derive(Clone, Copy)]
pub struct Part {
    source: Source,
    operator: Option<Operator>,
    division: Option<Division>,
    name: u8,
    literal: i32,
}

/// The parts of a long expression.
pub fn parts(pieces: &[Piece]) -> Vec<Part> {
    let mut parts: Vec<Part> = Vec::new();
    for piece in pieces {
        let (operator, division) = (Operator::of_piece(piece), Division::of_piece(piece));
        let part = Part { source: Source::Held, operator: None, division: None, name: 0, literal: 0 };
        let part = match *piece {
            Piece::Literal(literal) => Part { source: Source::Literal, literal, ..part },
            Piece::Value(name) => Part { source: Source::Value, name: name as u8, ..part },
            Piece::Written(name) => Part { source: Source::Written, name: name as u8, ..part },
            _ => parts.pop_if(|last| last.operator.is_none() && last.division.is_none()).unwrap_or(part),
        };
        parts.push(Part { operator, division, ..part });
    }
    parts
}
