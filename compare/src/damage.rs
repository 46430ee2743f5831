//! Words of tables and machines changed on purpose.

use crate::layout::{INSTRUCTIONS, WORDS};
use crate::random::Random;

pub fn change_words(random: &mut Random, words: &mut [u32]) {
    let used: Vec<usize> = (0..WORDS).filter(|&at| words[at] != 0).collect();
    for _ in 0..1 + random.below(3).min(random.below(3)) {
        let at = match random.below(8) {
            0 => random.below(8),
            1 => random.below(WORDS),
            2 => (random.pick_or(&used, 0) + 1) % WORDS,
            _ => random.pick_or(&used, 3),
        };
        words[at] = match random.below(6) {
            0 => words[at].wrapping_add(1),
            1 => words[at].wrapping_sub(1),
            2 => words[at] ^ 1 << random.below(32),
            3 => 0,
            4 => random.below(20) as u32,
            _ => random.bits() as u32,
        };
    }
}

/// The addresses of the cells that hold pieces of expressions: those of `S`, `A` and `U`, kinds 1 to 3.
fn piece_addresses(table: &[u32]) -> Vec<usize> {
    let instructions = table[INSTRUCTIONS..].chunks_exact(5).take(512).filter(|words| (1..=3).contains(&words[0]));
    instructions.flat_map(|words| (0..words[3] + words[4]).map(|k| (words[2] + 2 * k) as usize)).collect()
}

/// Another kind in the cell of a piece: one of the signs, or one that no piece has.
pub fn change_piece(random: &mut Random, table: &mut [u32]) {
    let Some(&at) = random.pick_any(&piece_addresses(table)) else { return change_words(random, table) };
    table[at] = *random.pick(&[3, 6, 7, 7, 7, 8, 8, 8, 9, 10, 255, u32::MAX]);
    if random.once_in(2) {
        table[at + 1] = random.below(8).min(1) as u32 ^ 1;
    }
}

/// The stopped form, with a number that stops or one that never does; and perhaps one more word.
pub fn stopped_form(random: &mut Random, machine: &mut [u32]) {
    let words = machine.len().min(WORDS);
    machine[..words].fill(0);
    machine[0] = *random.pick(&[1, 12, 13, 16, 17, 18, 18, 18, 19, 19, 20, 24, u32::MAX]);
    if random.once_in(4) {
        machine[1 + random.below(words - 1)] = 1;
    }
}
