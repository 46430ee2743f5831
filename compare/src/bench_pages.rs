//! The benchmark of the valve book's pages: a million writes, beside the plain pass.

use crate::bench::row;
use crate::board;
use crate::clock::beside;
use crate::plain_page;
use crate::random::Random;

const WRITES: usize = 1_000_000;
const AIM: f64 = 1.5;

/// In which order a moment's writes are listed: as the session lists them, those with 0 first, or at random.
#[derive(Clone, Copy, PartialEq)]
enum Order {
    Rising,
    ZerosFirst,
    Any,
}

/// Which values are written: half of them 0 at random; by turns, so that a processor foresees them; or never 0, so that
/// each valve opens once.
#[derive(Clone, Copy, PartialEq)]
enum Values {
    Half,
    ByTurns,
    Open,
}

struct Lists {
    moments: Vec<u64>,
    outputs: Vec<u32>,
    values: Vec<u32>,
}

/// The writes of one moment.
fn together(random: &mut Random, a_moment: usize, order: Order, values: Values, moment: u64) -> Vec<(u32, u32)> {
    let mut outputs: Vec<u32> = (0..16).collect();
    (1..16).for_each(|k| outputs.swap(k, random.below(k + 1)));
    let value = |random: &mut Random| match values {
        Values::Half => random.below(2) as u32 * (1 + random.below(5) as u32),
        Values::ByTurns => (moment % 2) as u32,
        Values::Open => 1 + random.below(5) as u32,
    };
    let mut writes: Vec<(u32, u32)> = outputs[..a_moment].iter().map(|&output| (output, value(random))).collect();
    match order {
        Order::Rising => writes.sort(),
        Order::ZerosFirst => writes.sort_by_key(|&(output, value)| (value != 0, output)),
        Order::Any => {}
    }
    writes
}

/// A million writes, so many a moment.
fn lists(a_moment: usize, order: Order, values: Values) -> Lists {
    let random = &mut Random::new(1);
    let mut all = Lists { moments: vec![], outputs: vec![], values: vec![] };
    let mut moment = 0;
    while all.moments.len() < WRITES {
        moment += 1 + 2 * random.below(500) as u64;
        for (output, value) in together(random, a_moment, order, values, moment) {
            all.moments.push(moment);
            all.outputs.push(output);
            all.values.push(value);
        }
    }
    all
}

/// A page by the library and by the plain pass, for each write.
fn times(lists: &Lists, page: u64) -> (f64, f64) {
    let Lists { moments, outputs, values } = lists;
    let (mut ours, mut plain) = (vec![0; 2_700], vec![0; 2_700]);
    let [library, peer] =
        beside([&mut || assert_eq!(board::page(moments, outputs, values, page, &mut ours).number, 0), &mut || {
            assert_eq!(plain_page::page(moments, outputs, values, page, &mut plain).0, 0)
        }]);
    assert_eq!(ours, plain);
    (library / moments.len() as f64, peer / moments.len() as f64)
}

pub fn pages() {
    println!("\n| a page of the valve book, each of a million writes | library | plain pass | ratio | aim |\n|---|---|---|---|---|");
    let orders = [(Order::Rising, "rising"), (Order::ZerosFirst, "0 first, then rising"), (Order::Any, "in any order")];
    let kinds = [
        (Values::Half, 1_000, "values at random"),
        (Values::ByTurns, 1_000, "all open, all close"),
        (Values::Open, 1, "none closes"),
    ];
    for (values, page, kind) in kinds {
        for (order, name) in orders {
            for a_moment in [1, 4, 16] {
                if order != Order::Rising && (a_moment == 1 || (order == Order::ZerosFirst && values != Values::Half)) {
                    continue;
                }
                let lists = lists(a_moment, order, values);
                row(&format!("{a_moment} a moment, {name}; {kind}"), times(&lists, page), Some(AIM));
            }
        }
    }
}
