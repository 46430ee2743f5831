//! The questions that an instant is asked before it is made.

use crate::listing::Program;
use crate::walk::{Machine, Number};

/// "12 Is the allowance 1 to 1,000,000?"
pub fn allowance_in_range(allowance: u32) -> bool {
    (1..=1_000_000).contains(&allowance)
}

impl Machine {
    /// Questions 8 to 12, in order.
    pub fn refusal(&self, program: &Program, t: u64, inputs: &[(u32, i32)], allowance: u32) -> Option<Number> {
        let below = inputs.iter().all(|&(n, _)| (n as usize) < program.inputs);
        let rising = inputs.windows(2).all(|pair| pair[0].0 < pair[1].0);
        let answers = [
            (8, self.stopped.is_none()),
            (9, t > self.moment),
            (10, self.due().iter().all(|&due| due >= t)),
            (11, below && rising),
            (12, allowance_in_range(allowance)),
        ];
        answers.iter().find(|answer| !answer.1).map(|answer| answer.0)
    }
}
