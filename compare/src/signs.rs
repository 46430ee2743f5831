//! The value of an expression, and what its signs make of two values, the right one being held last.

use crate::listing::Piece;
use crate::walk::Cell;

/// The value of an expression over what its names stand for; none at the first divisor that is 0.
pub fn value(pieces: &[Piece], cell: impl Fn(usize) -> Cell) -> Option<i32> {
    let mut held: Vec<i32> = Vec::new();
    for piece in pieces {
        let value = match *piece {
            Piece::Literal(value) => value,
            Piece::Value(name) => cell(name).value,
            Piece::Written(name) => i32::from(cell(name).written),
            sign => {
                let right = held.pop().expect("a second value");
                let left = held.pop().expect("a first value");
                made(sign, left, right)?
            }
        };
        held.push(value);
    }
    Some(held[0])
}

/// "Sums, differences and products wrap at 32 bits, two's complement; `<` gives 1 or 0." No value if
/// the divisor is 0.
fn made(sign: Piece, left: i32, right: i32) -> Option<i32> {
    match sign {
        Piece::Plus => Some(left.wrapping_add(right)),
        Piece::Minus => Some(left.wrapping_sub(right)),
        Piece::Times => Some(left.wrapping_mul(right)),
        Piece::Less => Some(i32::from(left < right)),
        Piece::Quotient => quotient(left, right),
        Piece::Remainder => remainder(left, right),
        Piece::Literal(_) | Piece::Value(_) | Piece::Written(_) => unreachable!("no sign"),
    }
}

/// "rounding toward zero"; "-2147483648 divided by -1 wraps to itself": the exact quotient has 33 bits
/// at most.
fn quotient(left: i32, right: i32) -> Option<i32> {
    let size = i64::from(left).abs().checked_div(i64::from(right).abs())?;
    Some(if (left < 0) == (right < 0) { size } else { -size } as i32)
}

/// "the remainder with the dividend's sign": what the quotient times the divisor leaves of the dividend.
fn remainder(left: i32, right: i32) -> Option<i32> {
    Some(left.wrapping_sub(quotient(left, right)?.wrapping_mul(right)))
}
