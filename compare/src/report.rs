//! Runs many cases and prints how often each number was met.

use crate::compare::{case, Counts};
use crate::walk::NUMBERS;
use std::time::Instant;

/// Cases until so many answers have been compared; says whether all agreed.
pub fn run(answers: u64, seed: u64) -> bool {
    let began = Instant::now();
    let mut counts = Counts::default();
    let mut cases = 0;
    while counts.answers() < answers {
        let one = seed.wrapping_add(cases);
        if let Err(difference) = case(one, &mut counts) {
            println!("case {one} differs: {difference}");
            return false;
        }
        cases += 1;
    }
    println!("cases {cases} from seed {seed}, answers {}, {:.0} s", counts.answers(), began.elapsed().as_secs_f64());
    println!("damaged words: {} calls, of which {} still passed 6 and 7", counts.damaged, counts.damaged_passed);
    counts.presses.print();
    println!("{:>6} {:>10} {:>10} {:>10} {:>10} {:>10}", "number", "load", "start", "instant", "alike", "look");
    for number in 0..NUMBERS {
        let row =
            [counts.load, counts.start, counts.instant, counts.alike, counts.look].map(|by_number| by_number[number]);
        println!("{number:>6} {:>10} {:>10} {:>10} {:>10} {:>10}", row[0], row[1], row[2], row[3], row[4]);
    }
    println!("no difference");
    true
}
