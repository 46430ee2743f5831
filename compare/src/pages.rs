//! Pages of the valve book: lists at random, and the library and the benchmark's plain pass beside the model.

use crate::board;
use crate::page_model;
use crate::plain_page;
use crate::random::Random;

const PAGE: usize = 2_700;

/// Three lists of writes as they are lent, and the page that is asked for.
struct Asked {
    moments: Vec<u64>,
    outputs: Vec<u32>,
    values: Vec<u32>,
    page: u64,
}

/// Number and pages of the model's result, and the memory afterwards.
fn answer(asked: &Asked, before: &[u8]) -> (u32, u64, Vec<u8>) {
    let Asked { moments, outputs, values, page } = asked;
    let mut memory = before.to_vec();
    let told = page_model::page(moments, outputs, values, *page, &mut memory);
    assert_eq!(told.place, 0);
    (told.number, told.pages, memory)
}

/// The moment after this one: mostly soon, at times far, up to the last of all.
fn later(random: &mut Random, moment: u64) -> u64 {
    match random.below(40) {
        0 => moment.saturating_add(random.bits()),
        1 => u64::MAX - (u64::MAX - moment) / 2,
        2 => u64::MAX,
        3..=12 => moment.saturating_add(1),
        _ => moment.saturating_add(1 + random.below(100_000) as u64),
    }
}

/// Lists that pass, unless the moments end: any number of writes a moment, in any order.
fn passing(random: &mut Random) -> Asked {
    let writes = if random.once_in(4) { random.below(1_200) } else { random.below(90) };
    let (most, zeros, rising) = (*random.pick(&[1, 2, 4, 16]), 1 + random.below(6), random.once_in(3));
    let mut asked = Asked { moments: vec![], outputs: vec![], values: vec![], page: 0 };
    let mut moment = if random.once_in(3) { 0 } else { random.below(1_000) as u64 };
    while asked.moments.len() < writes {
        let mut outputs: Vec<u32> = (0..16).collect();
        (1..16).for_each(|k| outputs.swap(k, random.below(k + 1)));
        outputs.truncate(1 + random.below(most));
        if rising {
            outputs.sort();
        }
        for output in outputs {
            asked.moments.push(moment);
            asked.outputs.push(output);
            asked.values.push(if random.once_in(zeros) { 0 } else { random.value() as u32 });
        }
        if moment == u64::MAX {
            break;
        }
        moment = later(random, moment);
    }
    asked
}

/// Damage: a moment that falls, an output of 16 or more, a double somewhere, unequal lists.
fn damage(random: &mut Random, asked: &mut Asked) {
    let writes = asked.moments.len();
    let at = random.below(writes.max(1));
    match random.below(5) {
        0 if writes > 1 && at > 0 => {
            asked.moments[at] = asked.moments[at - 1].saturating_sub(1 + random.below(3) as u64)
        }
        1 if writes > 0 => asked.outputs[at] = 16 + *random.pick(&[0, 1, u32::MAX - 16]),
        2 if writes > 0 => {
            let same: Vec<usize> = (0..writes).filter(|&k| asked.moments[k] == asked.moments[at]).collect();
            asked.outputs[at] = asked.outputs[*random.pick(&same)];
        }
        3 => asked.values.push(1),
        _ => drop(asked.outputs.pop()),
    }
}

fn case(seed: u64) -> (Asked, Vec<u8>) {
    let random = &mut Random::new(seed ^ 0xB00C);
    let mut asked = passing(random);
    if random.once_in(4) {
        damage(random, &mut asked);
    }
    asked.page = match random.below(12) {
        0 => 0,
        1 => random.bits(),
        2 => u64::MAX / 59 + random.below(4) as u64,
        3 => u64::MAX - random.below(3) as u64,
        4 => 1 + random.below(asked.moments.len() / 59 + 2) as u64,
        _ => 1 + random.below(asked.moments.len() / 118 + 1) as u64,
    };
    let length = if random.once_in(30) { PAGE - 1 - random.below(3) } else { PAGE + random.below(4) * 40 };
    (asked, vec![random.bits() as u8; length])
}

/// What the library, or the plain pass of the benchmark, makes of the same.
fn others(asked: &Asked, before: &[u8]) -> [(&'static str, u32, u64, Vec<u8>); 2] {
    let Asked { moments, outputs, values, page } = asked;
    let (mut memory, mut plain) = (before.to_vec(), before.to_vec());
    let ours = board::page(moments, outputs, values, *page, &mut memory);
    assert_eq!(ours.place, 0);
    let (number, pages) = plain_page::page(moments, outputs, values, *page, &mut plain);
    [("the library", ours.number, ours.pages, memory), ("the plain pass", number, pages, plain)]
}

/// So many lists and pages; says whether all agreed.
pub fn run(count: u64, seed: u64) -> bool {
    let (mut by_number, mut with_rows) = ([0u64; 12], 0);
    for one in seed..seed.saturating_add(count) {
        let (asked, before) = case(one);
        let (number, pages, after) = answer(&asked, &before);
        for (who, n, p, memory) in others(&asked, &before) {
            if (n, p) != (number, pages) || memory != after {
                println!("page case {one} differs: the model has {number} and {pages} pages, {who} {n} and {p}");
                return false;
            }
        }
        by_number[number as usize] += 1;
        with_rows +=
            u64::from(after.get(47..89).is_some_and(|row| number == 0 && row.iter().any(|&byte| byte != b' ')));
    }
    println!("pages {count} from seed {seed}, {with_rows} of them with rows; by number:");
    for number in [0, 1, 9, 11] {
        println!("{number:>6} {:>10}", by_number[number]);
    }
    println!("no difference");
    true
}
