//! How often the inputs of calls meet waiting writes: document 02's Change 4.

use crate::calls::Call;
use crate::walk::{Answer, Machine, Variable};

/// The waiting writes that a call's inputs meet: variable and moment due, as they were before the call.
pub struct Met(Vec<(Variable, u64)>);

impl Met {
    pub fn new(call: &Call, inputs: usize, machine: Option<&Machine>) -> Met {
        let waiting = |variable| Some((variable, machine?.waiting(variable)?));
        let numbers = call.numbers.iter().filter(|&&number| (number as usize) < inputs);
        Met(numbers.filter_map(|&number| waiting(Variable::from(number))).collect())
    }
}

/// Calls, by what became of the waiting writes that their inputs met.
#[derive(Default)]
pub struct Presses {
    /// Accepted, and an input dropped one; those in which its variable got another in the same instant.
    dropped: u64,
    anew: u64,
    /// Accepted, and one was due at that moment.
    at_due: u64,
    /// Refused; those refused by 10 since that very write was due before.
    refused: u64,
    late: u64,
}

impl Presses {
    pub fn count(&mut self, call: &Call, met: &Met, answer: &Answer, after: Option<&Machine>) {
        let t = call.t.unwrap_or(0);
        let waits = |variable| after.is_some_and(|machine| machine.waiting(variable).is_some());
        match answer.number {
            0 => {
                self.dropped += met.0.iter().any(|&(_, due)| due > t) as u64;
                self.anew += met.0.iter().any(|&(variable, due)| due > t && waits(variable)) as u64;
                self.at_due += met.0.iter().any(|&(_, due)| due == t) as u64;
            }
            1..=12 => {
                self.refused += !met.0.is_empty() as u64;
                self.late += (answer.number == 10 && met.0.iter().any(|&(_, due)| due < t)) as u64;
            }
            _ => {}
        }
    }

    pub fn print(&self) {
        let Presses { dropped, anew, at_due, refused, late } = self;
        println!("presses: {dropped} accepted calls dropped a waiting write, {anew} of them with another put at once");
        println!("presses on a waiting write: {at_due} at the moment due; {refused} refused, {late} of them since it was due");
    }
}
