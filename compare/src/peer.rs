//! Holds the benchmark's plain queue engine against the model, so that it does the same work.

use crate::calls::{answer, random_call, Call};
use crate::listing;
use crate::plain::Plain;
use crate::presses::{Met, Presses};
use crate::random::Random;
use crate::texts;
use crate::walk::{Answer, NUMBERS};

/// So many answers; says whether all agreed.
pub fn run(answers: u64, seed: u64) -> bool {
    let mut numbers = [0; NUMBERS];
    let mut presses = Presses::default();
    let (mut compared, mut programs) = (0, 0);
    let mut one = seed;
    while compared < answers {
        let random = &mut Random::new(one);
        if let Ok(program) = listing::load(&texts::listing(random)) {
            programs += 1;
            let mut plain = Plain::new(&program);
            let mut model = None;
            for k in 0..2 + random.below(14) {
                let mut call = random_call(random, &program, model.as_ref());
                if k == 0 {
                    call = Call { t: None, numbers: Vec::new(), values: Vec::new(), allowance: 10_000 };
                }
                let met = Met::new(&call, program.inputs, model.as_ref());
                let want = answer(&call, Some(&program), &mut model);
                let got = given(&mut plain, &call);
                if got != want {
                    println!("case {one} differs: {call:?}: {got:?}, the model has {want:?}");
                    println!("{}", String::from_utf8_lossy(&listing::text(&program)));
                    return false;
                }
                presses.count(&call, &met, &want, model.as_ref());
                numbers[want.number as usize] += 1;
                compared += 1;
            }
        }
        one += 1;
    }
    println!("plain queue engine: {compared} answers on {programs} programs agree with the model");
    presses.print();
    for (number, times) in numbers.iter().enumerate().filter(|(_, &times)| times > 0) {
        println!("{number:>6} {times:>10}");
    }
    true
}

pub fn given(plain: &mut Plain, call: &Call) -> Answer {
    let result = match call.t {
        None => plain.start(call.allowance),
        Some(t) => plain.instant(t, &call.numbers, &call.values, call.allowance),
    };
    let outputs = plain.outputs[..result.listed as usize].to_vec();
    Answer { number: result.number, steps: result.steps, outputs, due: result.due }
}
