//! The stored answers of watering windows, in a file of cases (the format: README.md of the folder that has it): the model is
//! held against them, with the first bad line of a refused text, and so are the others.

use crate::random::Random;
use crate::window_cases::{Asked, Lists};
use crate::window_model::{self, read, Told};
use crate::windows::Other;
use std::fs;
use std::io;
use std::path::Path;

/// One stored case.
struct Stored {
    name: String,
    asked: Asked,
    told: Told,
    edges: Vec<[u64; 3]>,
    /// after a 19, the first line with a no
    line: Option<u64>,
}

/// The key of a line, and its figures.
fn record(line: &str) -> Option<(&str, Vec<u64>)> {
    let mut words = line.split(' ');
    let key = words.next()?;
    Some((key, words.map(|word| word.parse().ok()).collect::<Option<Vec<u64>>>()?))
}

/// The case of these lines, `end` left out; none if it has not its form.
fn stored(lines: &[&str]) -> Option<Stored> {
    let records: Vec<(&str, Vec<u64>)> = lines.iter().map(|line| record(line)).collect::<Option<_>>()?;
    let all = |key: &'static str| records.iter().filter(move |(found, _)| *found == key).map(|(_, figures)| figures);
    let one = |key| all(key).next();
    let schedule = one("schedule")?.iter().map(|&byte| u8::try_from(byte).ok()).collect::<Option<_>>()?;
    let (&[from, to], &[m, i, v]) = (&one("span")?[..], &one("rooms")?[..]) else { return None };
    let (&[name], &[number, place, listed]) = (&one("case")?[..], &one("=")?[..]) else { return None };
    let lists = Lists::filled(&mut Random::new(name), [m, i, v].map(|room| room as usize));
    let edges = all("edge").map(|figures| figures[..].try_into().ok()).collect::<Option<_>>()?;
    Some(Stored {
        name: name.to_string(),
        asked: Asked { schedule, from, to, lists },
        told: Told { number: number as u32, place: place as u32, listed },
        edges,
        line: one("line").map(|figures| figures[0]),
    })
}

/// All cases of a file.
fn cases(file: &Path) -> io::Result<Vec<Stored>> {
    let text = fs::read_to_string(file)?;
    let lines: Vec<&str> = text.lines().collect();
    let parts = lines.split(|&line| line == "end").filter(|part| !part.is_empty());
    let bad = |part: &[&str]| io::Error::other(format!("{:?} is no case", part.first()));
    parts.map(|part| stored(part).ok_or_else(|| bad(part))).collect()
}

/// Is this the stored answer: the result, the edges, and all other places as they were?
fn agrees(stored: &Stored, (told, after): (Told, Lists)) -> bool {
    let mut lists = stored.asked.lists.clone();
    let (moments, inputs, values) = lists.lent();
    for (place, &[moment, input, value]) in stored.edges.iter().enumerate() {
        (moments[place], inputs[place], values[place]) = (moment, input as u32, value as u32);
    }
    told == stored.told && stored.edges.len() as u64 == told.listed && after == lists
}

/// Holds the model, and the others, against every case; says whether all agree.
pub fn check(file: &Path, others: &[Other]) -> io::Result<bool> {
    let cases = cases(file)?;
    let everyone: Vec<Other> =
        [("the model", window_model::windows as _)].into_iter().chain(others.iter().copied()).collect();
    let mut differing = 0;
    for stored in &cases {
        for (who, windows) in &everyone {
            if !agrees(stored, stored.asked.answer(*windows)) {
                differing += 1;
                println!("case {}: {who} differs", stored.name);
            }
        }
        let line = read(&stored.asked.schedule).err();
        if line != stored.line {
            differing += 1;
            println!("case {}: the model's bad line is {line:?}, the stored one {:?}", stored.name, stored.line);
        }
    }
    let (edges, lines) =
        (cases.iter().map(|one| one.edges.len()).sum::<usize>(), cases.iter().filter_map(|one| one.line).count());
    let names: Vec<&str> = everyone.iter().map(|(who, _)| *who).collect();
    println!(
        "{}: {} cases, {edges} edges, {lines} bad lines: {}; {differing} differ",
        file.display(),
        cases.len(),
        names.join(", ")
    );
    Ok(differing == 0 && !cases.is_empty())
}
