//! Random listings and traces: well-formed, damaged, near a limit.

use crate::listing::{text, Child, Instruction, Piece, Program};
use crate::programs::program;
use crate::random::Random;

/// A program near a limit, as its text.
fn at_a_limit(random: &mut Random) -> Vec<u8> {
    let over = random.below(3);
    let (routines, instructions, locals, sum) = match random.below(4) {
        0 => (63 + over, 1, 0, 1),
        1 => (1, 510 + over, 1, 1),
        2 => (3, 5, 15 + over, 2),
        _ => (1, 512, 1, 4),
    };
    let mut out = String::from("P\t0\t0\n");
    for r in 0..routines {
        out += &format!("R\t-\t{locals}\n");
        for j in 1..instructions {
            let signs = " #-2147483648 -".repeat(sum - 1);
            let extra = if r == 0 && j <= over { " 0 +" } else { "" };
            let line = if locals == 0 { "G\t0\n".to_string() } else { format!("S\t0\t0{signs}{extra}\n") };
            out += &line;
        }
        out += "E\n";
    }
    // Figures of any length have their form: they make a text long without passing another limit.
    if random.once_in(3) {
        let short = 49_152usize.saturating_sub(out.len() + 3);
        let digits = (short + random.below(3)).saturating_sub(1).max(1);
        out = out.replacen("E\n", &format!("G\t{}\n", "7".repeat(digits)), 1);
    }
    out.into_bytes()
}

/// The text of a listing: well-formed, damaged, or near a limit.
pub fn listing(random: &mut Random) -> Vec<u8> {
    if random.once_in(60) {
        return at_a_limit(random);
    }
    let mut made = program(random);
    if random.once_in(5) {
        misdirect(random, &mut made);
    }
    let mut bytes = text(&made);
    if random.once_in(4) {
        for _ in 0..1 + random.below(3) {
            damage(random, &mut bytes);
        }
    }
    bytes
}

/// A fault that keeps every line's form: questions 4 and 5.
fn misdirect(random: &mut Random, program: &mut Program) {
    let count = program.routines.len();
    let r = random.below(count);
    let names = program.routines[r].names();
    let routine = &mut program.routines[r];
    match random.below(9) {
        0 => program.inputs += 1,
        1 => program.outputs = program.outputs.saturating_sub(1),
        2 => routine.code.clear(),
        3 => drop(routine.code.pop()),
        4 => routine.code.push(Instruction::Wait { names: vec![random.below(names + 1)] }),
        5 => routine.code.insert(0, Instruction::Go { target: routine.code.len() + random.below(3) }),
        6 => routine.code.insert(0, Instruction::Set { name: names + random.below(2), value: vec![Piece::Literal(1)] }),
        7 => {
            let field = Child { routine: random.below(count + 2), names: vec![0; random.below(4)] };
            routine.code.insert(0, Instruction::Fork { children: vec![field] });
        }
        _ => {
            let k = random.below(routine.by_reference.len() + 1);
            routine.by_reference.insert(k, random.once_in(2));
        }
    }
}

/// One change of bytes, lines or fields; of a listing or a trace.
pub fn damage(random: &mut Random, bytes: &mut Vec<u8>) {
    const BYTES: &[u8] = b"\t\t\n\n  00123456789#@-+*</%PRSAUGWFEIQrv\r\0\x80~.";
    let at = random.below(bytes.len() + 1);
    let byte = *random.pick(BYTES);
    match random.below(10) {
        0 => bytes.insert(at, byte),
        1 | 2 if at < bytes.len() => bytes[at] = byte,
        3 if at < bytes.len() => drop(bytes.remove(at)),
        4 if at < bytes.len() => bytes[at] ^= 1 << random.below(8),
        5 => bytes.truncate(at),
        6 => repeat_line(random, bytes, at),
        7 => swap_lines(random, bytes),
        8 => lengthen_figure(random, bytes, at),
        _ => *bytes = [&bytes[..at], &[byte; 2][..], &bytes[at..]].concat(),
    }
}

fn repeat_line(random: &mut Random, bytes: &mut Vec<u8>, at: usize) {
    let begin = bytes[..at].iter().rposition(|&b| b == b'\n').map_or(0, |p| p + 1);
    let end = bytes[begin..].iter().position(|&b| b == b'\n').map_or(bytes.len(), |p| begin + p + 1);
    let line = bytes[begin..end].repeat(if random.once_in(8) { 600 } else { 1 });
    bytes.splice(begin..begin, line);
}

fn swap_lines(random: &mut Random, bytes: &mut Vec<u8>) {
    let mut lines: Vec<Vec<u8>> = bytes.split_inclusive(|&b| b == b'\n').map(<[u8]>::to_vec).collect();
    if !lines.is_empty() {
        let (a, b) = (random.below(lines.len()), random.below(lines.len()));
        lines.swap(a, b);
    }
    *bytes = lines.concat();
}

fn lengthen_figure(random: &mut Random, bytes: &mut Vec<u8>, at: usize) {
    const FIGURES: [&str; 8] = [
        "4294967295",
        "4294967296",
        "4294967297",
        "2147483648",
        "18446744073709551616",
        "99999999999999999999999",
        "16",
        "17",
    ];
    let from = bytes[at..].iter().position(u8::is_ascii_digit).map(|p| at + p);
    if let Some(from) = from {
        let end = bytes[from..].iter().position(|b| !b.is_ascii_digit()).map_or(bytes.len(), |p| from + p);
        bytes.splice(from..end, random.pick(&FIGURES).bytes());
    }
}

/// A trace, perhaps damaged.
pub fn trace(random: &mut Random, inputs: usize) -> Vec<u8> {
    let mut out = String::new();
    let mut time = 1 + random.below(4) as u64 - random.once_in(30) as u64;
    for _ in 0..random.below(10) {
        // Mostly a group of rising inputs.
        let mut group: Vec<usize> = (0..inputs).filter(|_| random.once_in(2)).collect();
        if random.once_in(30) {
            group.push(random.below(6));
        }
        for input in group {
            out += &format!("I\t{time}\t{input}\t{}\n", random.value());
        }
        match random.below(60) {
            0 => time = time.saturating_sub(3),
            1 => time = u64::MAX - random.below(3) as u64,
            _ => time = time.saturating_add(1 + random.below(12) as u64),
        }
    }
    if !random.once_in(30) {
        out += &format!("Q\t{}\n", time.saturating_add(random.below(60) as u64));
    }
    let mut bytes = out.into_bytes();
    if random.once_in(6) {
        damage(random, &mut bytes);
    }
    bytes
}
