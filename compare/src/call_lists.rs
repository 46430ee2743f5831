//! The call lists made by hand for the gate's data files: answered by the model, but for what the library is to
//! refuse because a memory lent to it is short or spoiled.

use crate::calls::{answer, Call};
use crate::listing;
use crate::walk::Answer;

/// The names of the call lists made here.
const B_TO_E: u32 = 900;
const L: u32 = 901;
const BOUNDARY: u32 = 902;
const ALIKE: u32 = 903;
const SHARES: u32 = 2900;
const PRESS: u32 = 4900;

/// How the memory of one call is spoiled, the other memories being as they were.
#[derive(Clone, Copy)]
pub enum Spoil {
    Nothing = 0,
    ShortTable = 1,
    ShortMachine = 2,
    ShortNumbers = 3,
    ShortValues = 4,
    UnequalInputs = 5,
    Table = 6,
    Machine = 7,
}

/// How a comparison with the kept copy is spoiled: the kind of its item.
#[derive(Clone, Copy)]
pub enum Beside {
    Nothing = 3,
    ShortCopy = 4,
    Table = 6,
    Machine = 7,
}

/// One line of a call list.
pub enum Item {
    Call(Spoil, Call, Answer),
    Keep,
    Compare(Beside, u32, u32),
}

/// A call list: its name, the listing its calls are about, its lines.
pub struct CallList {
    pub name: u32,
    pub text: Vec<u8>,
    pub items: Vec<Item>,
}

/// All call lists made here.
pub fn made() -> Vec<CallList> {
    vec![b_to_e(), l(), boundary(), alike(), shares(), press()]
}

fn list(name: u32, text: &str, items: Vec<Item>) -> CallList {
    CallList { name, text: text.as_bytes().to_vec(), items }
}

const LISTING_A: &str = "P\t1\t1\nR\trr\t0\nW\t0\nS\t1\t#1\nA\t1\t#60000\t#0\nW\t1\nG\t0\n";

fn start(allowance: u32) -> Call {
    Call { t: None, numbers: Vec::new(), values: Vec::new(), allowance }
}

fn instant(t: u64, inputs: &[(u32, u32)], allowance: u32) -> Call {
    let (numbers, values) = inputs.iter().copied().unzip();
    Call { t: Some(t), numbers, values, allowance }
}

/// Calls answered one after the other by the model.
fn followed(text: &str, calls: Vec<Call>) -> Vec<Item> {
    let program = listing::load(text.as_bytes()).expect("the listing loads");
    let mut machine = None;
    calls
        .into_iter()
        .map(|call| {
            let given = answer(&call, Some(&program), &mut machine);
            Item::Call(Spoil::Nothing, call, given)
        })
        .collect()
}

/// Sessions b to e: steps, allowance 3 and 2, 10 and 9; then 8, 11, 12 and a new start.
fn b_to_e() -> CallList {
    let press = [(0, 1)];
    let calls = vec![
        start(1),
        instant(5_000, &press, 3),
        instant(5_000, &press, 3),
        instant(65_001, &[], 3),
        instant(65_000, &[(1, 1)], 3),
        instant(65_000, &[], 0),
        instant(65_000, &[], 1_000_001),
        instant(65_000, &[], 2),
        start(0),
        start(1_000_000),
        instant(5_000, &press, 2),
        instant(5_001, &press, 2),
    ];
    list(B_TO_E, LISTING_A, followed(LISTING_A, calls))
}

/// Session l: at the last moment a delay of 1 is 17, before it the last moment is due.
fn l() -> CallList {
    let text = "P\t1\t1\nR\trr\t0\nW\t0\nA\t1\t#1\t0\nG\t0\n";
    let press = [(0, 9)];
    let last = u64::MAX;
    let calls = vec![start(9), instant(last - 1, &press, 9), instant(last, &press, 9), instant(last, &[], 9)];
    list(L, text, followed(text, calls))
}

/// Memory too short, lists unequal, a table and a machine spoiled; then the call goes through.
fn boundary() -> CallList {
    let spoils = [
        (Spoil::ShortTable, 1),
        (Spoil::ShortMachine, 1),
        (Spoil::ShortNumbers, 1),
        (Spoil::ShortValues, 1),
        (Spoil::UnequalInputs, 1),
        (Spoil::Table, 6),
        (Spoil::Machine, 7),
    ];
    let mut items: Vec<Item> = Vec::new();
    for call in [start(10), instant(5_000, &[(0, 1)], 10)] {
        for (spoil, number) in spoils {
            let asked = call.t.is_some() || !matches!(spoil, Spoil::UnequalInputs | Spoil::Machine);
            if asked {
                items.push(Item::Call(spoil, call.clone(), Answer::refused(number)));
            }
        }
        if call.t.is_none() {
            items.extend(followed(LISTING_A, vec![call]));
        } else {
            items.extend(followed(LISTING_A, vec![start(10), call]).into_iter().skip(1));
        }
    }
    list(BOUNDARY, LISTING_A, items)
}

/// A comparison as it is, with its number and its word.
fn compared(number: u32, alike: u32) -> Item {
    Item::Compare(Beside::Nothing, number, alike)
}

/// The comparisons that are refused before it is asked whether the machines run.
fn spoiled() -> [Item; 3] {
    [(Beside::ShortCopy, 1), (Beside::Table, 6), (Beside::Machine, 7)]
        .map(|(beside, number)| Item::Compare(beside, number, 0))
}

/// A machine beside its kept copy: alike, spoiled, alike again, then not, then stopped.
fn alike() -> CallList {
    let mut calls = followed(LISTING_A, vec![start(10), instant(5_000, &[(0, 1)], 10), instant(5_001, &[(0, 1)], 10)]);
    calls.extend(followed(LISTING_A, vec![start(10), instant(1, &[(0, 1)], 1)]));
    let mut items = Vec::new();
    for (k, call) in calls.into_iter().enumerate() {
        items.push(call);
        match k {
            0 => {
                items.extend([Item::Keep, compared(0, 1)]);
                items.extend(spoiled());
                items.push(compared(0, 1));
            }
            1 => items.extend([compared(0, 0), Item::Keep, compared(0, 1)]),
            2 => items.push(compared(0, 0)),
            4 => {
                items.extend([compared(8, 0), Item::Keep, compared(8, 0)]);
                items.extend(spoiled());
            }
            _ => {}
        }
    }
    list(ALIKE, LISTING_A, items)
}

/// A share by what input 0 says: done; 18, and then a stopped machine; 13 and not 18 with no step left.
fn shares() -> CallList {
    let text = "P\t1\t2\nR\trrr\t0\nW\t0\nG\t2\nS\t1\t#100 0 /\nS\t2\t#100 0 %\nG\t0\n";
    let by = |t, input: i32, allowance| instant(t, &[(0, input as u32)], allowance);
    let calls = vec![start(10), by(10, 7, 10), by(20, -7, 5), by(30, 0, 10), by(40, 7, 10)];
    let mut items = Vec::new();
    for (k, call) in followed(text, calls).into_iter().enumerate() {
        items.push(call);
        match k {
            0 => items.extend([Item::Keep, compared(0, 1)]),
            1 => items.extend([compared(0, 0), Item::Keep]),
            2 => items.push(compared(0, 0)),
            4 => items.push(compared(8, 0)),
            _ => {}
        }
    }
    for (spoil, number) in [(Spoil::ShortMachine, 1), (Spoil::Table, 6)] {
        items.push(Item::Call(spoil, by(40, 7, 10), Answer::refused(number)));
    }
    items.extend([Item::Keep, compared(8, 0)]);
    items.extend(spoiled());
    items.extend(followed(text, vec![start(10), by(10, 0, 0), by(10, 0, 2)]));
    items.extend(followed(text, vec![start(10), by(10, 0, 1), by(10, 7, 5)]));
    items.extend(followed(text, vec![start(10), by(10, i32::MIN, 5)]));
    list(SHARES, text, items)
}

/// Calls on a board whose inputs 0 and 1 get timers of 100 by a press of 1; 2 makes an `S` on the other input.
fn press_calls() -> Vec<Call> {
    let at = |t, inputs: &[(u32, u32)]| instant(t, inputs, 30);
    vec![
        start(30),
        at(10, &[(0, 1)]),
        at(20, &[(1, 1)]),
        // Refused by 9 to 12, and both timers stand.
        at(20, &[(0, 0)]),
        at(111, &[(0, 0)]),
        at(30, &[(0, 0), (2, 0)]),
        at(30, &[(1, 0), (0, 0)]),
        instant(30, &[(0, 0)], 0),
        at(30, &[]),
        // The one is dropped, then the other.
        at(40, &[(0, 0)]),
        at(50, &[(1, 0)]),
        // Both again; then each is dropped, and one set after the press stands.
        at(60, &[(0, 1), (1, 1)]),
        at(70, &[(0, 1)]),
        at(80, &[(1, 1)]),
        // Input 1's is dropped; input 0's stands, though `S` writes input 0.
        at(90, &[(1, 2)]),
        // Presses as a timer is due.
        at(170, &[(0, 4)]),
        at(180, &[(0, 1), (1, 1)]),
        at(280, &[(0, 1)]),
        at(380, &[(0, 1), (1, 0)]),
        // A board whose timer was dropped, and one that never had it.
        start(30),
        at(10, &[(0, 1)]),
        at(20, &[(0, 0)]),
        start(30),
        at(20, &[(0, 0)]),
    ]
}

/// What a press does to a timer on its input, with copies kept before refusals and at the end.
fn press() -> CallList {
    let text = "P\t2\t1\nR\trrr\t0\nF\t1 0 1 2\t1 1 0 2\nE\nR\trrr\t0\nW\t0\nS\t2\t0\nU\t0 #1 -\t5\nU\t0 #2 -\t7\n\
                G\t0\nA\t0\t#100\t#9\nG\t0\nS\t1\t#3\nG\t0\n";
    let mut items = Vec::new();
    for (k, call) in followed(text, press_calls()).into_iter().enumerate() {
        items.push(call);
        match k {
            2 => items.extend([Item::Keep, compared(0, 1)]),
            3..=7 => items.push(compared(0, 1)),
            8 => items.extend([compared(0, 0), Item::Keep]),
            9 => items.push(compared(0, 0)),
            21 => items.push(Item::Keep),
            23 => items.push(compared(0, 1)),
            _ => {}
        }
    }
    list(PRESS, text, items)
}
