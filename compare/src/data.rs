//! Writes the data files of the gate's test programs from folders of stored answers, the sessions of
//! examples/ and the call lists made by hand. A folder comes with what is added to the numbers of its cases;
//! of two folders the later one is right. Only stored answers that the model gives too are written.
//! The format stands in crates/test_cases/src/frame.rt and crates/test_calls/src.

use crate::call_lists::{made, CallList, Item, Spoil};
use crate::vectors::{answers, calls_agree, cases, corrected_cases, load_agrees, session_agrees, Case};
use std::collections::BTreeSet;
use std::io;
use std::path::{Path, PathBuf};

/// A test program reads a whole file at once.
const LONGEST: usize = 300_000;
/// The cases named below LATER are those that were chosen when a program read so much; later ones follow them,
/// and so do the ones that a later request has corrected.
const FIRST_LONGEST: usize = 65_536;
const LATER: u32 = 2_000;
/// The names of the sessions of examples/.
const EXAMPLES: [(u32, &str); 7] = [
    (950, "two_growers"),
    (951, "fresh_order"),
    (952, "standing_closing"),
    (953, "timeout"),
    (954, "low_pressure"),
    (2950, "dosing"),
    (4950, "two_presses"),
];

fn word(out: &mut Vec<u8>, value: u32) {
    out.extend(value.to_le_bytes());
}

fn moment(out: &mut Vec<u8>, value: u64) {
    word(out, value as u32);
    word(out, (value >> 32) as u32);
}

fn part(out: &mut Vec<u8>, bytes: &[u8]) {
    word(out, bytes.len() as u32);
    out.extend(bytes);
}

fn item(out: &mut Vec<u8>, item: &Item) {
    match item {
        Item::Keep => word(out, 2),
        Item::Compare(beside, number, alike) => {
            [*beside as u32, *number, *alike].into_iter().for_each(|w| word(out, w))
        }
        Item::Call(spoil, call, answer) => {
            word(out, call.t.is_some() as u32);
            word(out, *spoil as u32);
            moment(out, call.t.unwrap_or(0));
            word(out, call.allowance);
            word(out, call.numbers.len() as u32);
            for (&number, &value) in call.numbers.iter().zip(&call.values) {
                word(out, number);
                word(out, value);
            }
            [answer.number, answer.steps, answer.outputs.len() as u32, answer.due.is_some() as u32]
                .into_iter()
                .for_each(|w| word(out, w));
            moment(out, answer.due.unwrap_or(0));
            for &(number, value) in &answer.outputs {
                word(out, number);
                word(out, value as u32);
            }
        }
    }
}

fn call_list(list: &CallList) -> Vec<u8> {
    let mut out = Vec::new();
    word(&mut out, list.name);
    part(&mut out, &list.text);
    word(&mut out, list.items.len() as u32);
    list.items.iter().for_each(|one| item(&mut out, one));
    out
}

fn name(case: &Case) -> u32 {
    case.name.parse().expect("a case is named by its number")
}

fn load_case(case: &Case) -> Vec<u8> {
    let mut out = Vec::new();
    word(&mut out, name(case));
    part(&mut out, &case.listing);
    let (number, place) = case.load.trim_end().split_once('\t').expect("number and place");
    word(&mut out, number.parse().expect("a figure"));
    word(&mut out, place.parse().expect("a figure"));
    out
}

fn session_case(case: &Case) -> Vec<u8> {
    let mut out = Vec::new();
    word(&mut out, name(case));
    [&case.listing, &case.trace, &case.expected].into_iter().for_each(|bytes| part(&mut out, bytes));
    out
}

/// A session of examples/, as a case without calls.
fn example(folder: &Path, name: u32, file: &str) -> io::Result<Case> {
    let read = |ending: &str| std::fs::read(folder.join(format!("{file}.{ending}")));
    Ok(Case {
        name: name.to_string(),
        listing: read("listing")?,
        load: "0\t0\n".to_string(),
        trace: read("trace")?,
        expected: read("expected")?,
        calls: None,
    })
}

fn calls_case(case: &Case) -> Option<Vec<u8>> {
    let (calls, _) = case.calls.as_ref()?;
    let given = answers(&case.listing, calls);
    let items = calls.iter().zip(given).map(|(call, answer)| Item::Call(Spoil::Nothing, call.clone(), answer));
    Some(call_list(&CallList { name: name(case), text: case.listing.clone(), items: items.collect() }))
}

/// The name of a written case.
fn named(case: &[u8]) -> u32 {
    u32::from_le_bytes([case[0], case[1], case[2], case[3]])
}

/// The smallest cases that fit into the room, in the order of their names, with those that must be there.
fn chosen(room: usize, must: Vec<Vec<u8>>, mut cases: Vec<Vec<u8>>) -> Vec<Vec<u8>> {
    cases.sort_by_key(Vec::len);
    let mut room = room.checked_sub(must.concat().len()).expect("what must be there fits");
    cases.retain(|case| {
        let fits = case.len() <= room;
        room -= if fits { case.len() } else { 0 };
        fits
    });
    cases.extend(must);
    cases.sort_by_key(|case| named(case));
    cases
}

/// One file, by name: the cases named below LATER, as many as fitted at first, and the later and corrected ones.
fn file(corrected: &BTreeSet<u32>, must: Vec<Vec<u8>>, cases: Vec<Vec<u8>>) -> (usize, Vec<u8>) {
    let first = |case: &Vec<u8>| named(case) < LATER && !corrected.contains(&named(case));
    let (must, later_must) = must.into_iter().partition(first);
    let (cases, later) = cases.into_iter().partition(first);
    let mut all = chosen(FIRST_LONGEST - 4, must, cases);
    all.extend(chosen(LONGEST - 4 - all.concat().len(), later_must, later));
    all.sort_by_key(|case| named(case));
    assert!(all.windows(2).all(|two| named(&two[0]) < named(&two[1])), "two cases of one name");
    let mut out = Vec::new();
    word(&mut out, all.len() as u32);
    out.extend(all.concat());
    (all.len(), out)
}

/// The case whose listing passes the limit of bytes, and the one that passes that of pieces.
const LONG: [u32; 2] = [112, 113];

// ---- the cases of folders

/// Cases named by their numbers and what is added.
fn renamed(added: u32, mut cases: Vec<Case>) -> Vec<Case> {
    for case in &mut cases {
        case.name = (added + name(case)).to_string();
    }
    cases
}

fn same_questions(one: &Case, other: &Case) -> bool {
    let calls = |case: &Case| case.calls.as_ref().map(|(calls, _)| calls.clone());
    one.listing == other.listing && one.trace == other.trace && calls(one) == calls(other)
}

/// The folders of files that stand in place of the first folder's: `base/` of the later ones that have it.
fn corrections(later: &[(u32, &Path)]) -> Vec<PathBuf> {
    later.iter().map(|(_, folder)| folder.join("base")).filter(|base| base.is_dir()).collect()
}

/// The names of the first folder's cases for which a later folder's `base/` has a file.
fn corrected(folders: &[(u32, &Path)]) -> io::Result<BTreeSet<u32>> {
    let (first, later) = folders.split_first().expect("a folder");
    let mut names = BTreeSet::new();
    for base in corrections(later) {
        for entry in std::fs::read_dir(base)? {
            let file = entry?.path();
            let number = file.file_stem().and_then(|stem| stem.to_str()?.parse::<u32>().ok());
            names.extend(number.map(|number| first.0 + number));
        }
    }
    Ok(names)
}

/// The first folder's cases, with the files in `base/` of later folders in place of their own; then the cases of
/// the later folders, without those that a folder after them has again.
fn gathered(folders: &[(u32, &Path)]) -> io::Result<Vec<Case>> {
    let (first, later) = folders.split_first().expect("a folder");
    let mut all = renamed(first.0, corrected_cases(first.1, &corrections(later))?);
    for &(added, folder) in later {
        let cases = renamed(added, cases(folder)?);
        all.retain(|case| name(case) < LATER || !cases.iter().any(|again| same_questions(case, again)));
        all.extend(cases);
    }
    Ok(all)
}

/// Does the model give this part of the case as it is stored?
type Agrees = fn(&Case) -> Option<bool>;
const PARTS: [(&str, Agrees); 3] = [("load", load_agrees), ("session", session_agrees), ("calls", calls_agree)];

/// The cases of which this part is written.
fn held(cases: &[Case], agrees: Agrees) -> impl Iterator<Item = &Case> {
    cases.iter().filter(move |case| agrees(case) == Some(true))
}

/// Names what is left out: of folders between the first and the last, what a later request answers otherwise.
/// Of any other case it is a fault.
fn left_out(cases: &[Case], last: u32) -> io::Result<()> {
    for case in cases {
        for (what, agrees) in PARTS {
            match agrees(case) {
                Some(false) if (LATER..last).contains(&name(case)) => println!("{}: {what} left out", case.name),
                Some(false) => return Err(io::Error::other(format!("{}: the stored {what} differs", case.name))),
                _ => {}
            }
        }
    }
    Ok(())
}

/// Writes loads.dat, long.dat, sessions.dat and calls.dat.
pub fn write(examples: &Path, out: &Path, folders: &[(u32, &Path)]) -> io::Result<bool> {
    let last = folders.last().map_or(0, |folder| folder.0);
    let (cases, corrected) = (gathered(folders)?, corrected(folders)?);
    let examples: io::Result<Vec<Case>> = EXAMPLES.iter().map(|(name, file)| example(examples, *name, file)).collect();
    let examples = examples?;
    left_out(&cases, last)?;
    left_out(&examples, 0)?;
    let lists = made().iter().map(call_list).collect();
    let long = cases.iter().filter(|case| LONG.contains(&name(case)));
    let sessions = examples.iter().map(session_case).collect();
    let file = |must, cases| file(&corrected, must, cases);
    let files = [
        ("loads.dat", file(Vec::new(), held(&cases, load_agrees).map(load_case).collect())),
        ("long.dat", file(long.map(load_case).collect(), Vec::new())),
        ("sessions.dat", file(sessions, held(&cases, session_agrees).map(session_case).collect())),
        ("calls.dat", file(lists, held(&cases, calls_agree).filter_map(calls_case).collect())),
    ];
    std::fs::create_dir_all(out)?;
    for (name, (count, bytes)) in files {
        std::fs::write(out.join(name), &bytes)?;
        println!("{name}: {count} cases, {} bytes", bytes.len());
    }
    Ok(true)
}
