//! Stored answers: a folder of cases NNN.listing, .load, .trace, .expected and, where the listing
//! loads, .calls and .answers. The model is held against them, and the plain queue engine against the calls.

use crate::calls::{answer, Call};
use crate::listing;
use crate::peer::given;
use crate::plain::Plain;
use crate::session::session;
use crate::walk::Answer;
use std::fs;
use std::path::{Path, PathBuf};

/// One stored case.
pub struct Case {
    pub name: String,
    pub listing: Vec<u8>,
    pub load: String,
    pub trace: Vec<u8>,
    pub expected: Vec<u8>,
    pub calls: Option<(Vec<Call>, String)>,
}

/// All cases of a folder, by name.
pub fn cases(folder: &Path) -> std::io::Result<Vec<Case>> {
    corrected_cases(folder, &[])
}

/// All cases of a folder, by name, with the corrections' files in place of those of the same name.
pub fn corrected_cases(folder: &Path, corrections: &[PathBuf]) -> std::io::Result<Vec<Case>> {
    let mut names: Vec<String> = fs::read_dir(folder)?
        .filter_map(|entry| entry.ok()?.file_name().into_string().ok()?.strip_suffix(".listing").map(str::to_string))
        .collect();
    names.sort();
    let file = |file: String| {
        let corrected = corrections.iter().rev().map(|correction| correction.join(&file)).find(|path| path.exists());
        corrected.unwrap_or(folder.join(file))
    };
    names.into_iter().map(|name| case(file, name)).collect()
}

/// The case of this name; `file` finds its files.
fn case(file: impl Fn(String) -> PathBuf, name: String) -> std::io::Result<Case> {
    let part = |ending: &str| file(format!("{name}.{ending}"));
    let calls = match fs::read_to_string(part("calls")) {
        Ok(text) => Some((text.lines().map(call).collect(), fs::read_to_string(part("answers"))?)),
        Err(_) => None,
    };
    Ok(Case {
        listing: fs::read(part("listing"))?,
        load: fs::read_to_string(part("load"))?,
        trace: fs::read(part("trace"))?,
        expected: fs::read(part("expected"))?,
        calls,
        name,
    })
}

fn call(line: &str) -> Call {
    let fields: Vec<&str> = line.split('\t').collect();
    let figure = |text: &str| text.parse::<u64>().expect("a figure in a call");
    let (t, after) = if fields[0] == "S" { (None, 1) } else { (Some(figure(fields[1])), 2) };
    let inputs = fields[after + 1..].iter().map(|pair| {
        let (number, value) = pair.split_once(' ').expect("an input is a number and a value");
        (figure(number) as u32, value.parse::<i32>().expect("a signed value") as u32)
    });
    let (numbers, values) = inputs.unzip();
    Call { t, numbers, values, allowance: figure(fields[after]) as u32 }
}

/// The model's answers to a list of calls.
pub fn answers(text: &[u8], calls: &[Call]) -> Vec<Answer> {
    let program = listing::load(text).expect("a case with calls loads");
    let mut machine = None;
    calls.iter().map(|call| answer(call, Some(&program), &mut machine)).collect()
}

/// One answer as a line of an .answers file.
pub fn answer_line(answer: &Answer) -> String {
    let due = answer.due.map_or("-".to_string(), |due| due.to_string());
    let mut line = format!("{}\t{}\t{}\t{due}", answer.number, answer.steps, answer.outputs.len());
    for (number, value) in &answer.outputs {
        line += &format!("\t{number} {value}");
    }
    line + "\n"
}

/// Holds the model against every case of every folder; says whether all agree.
pub fn check_all(folders: &[&str]) -> std::io::Result<bool> {
    let mut same = true;
    for folder in folders {
        same &= check(Path::new(folder))?;
    }
    Ok(same)
}

fn check(folder: &Path) -> std::io::Result<bool> {
    let (mut agreed, mut differing) = (0, 0);
    for case in cases(folder)? {
        for (what, same) in [
            ("load", load_agrees(&case)),
            ("session", session_agrees(&case)),
            ("calls", calls_agree(&case)),
            ("plain engine's calls", plain_agrees(&case)),
        ] {
            match same {
                None => {}
                Some(true) => agreed += 1,
                Some(false) => {
                    differing += 1;
                    println!("{}: {what} differs", case.name);
                }
            }
        }
    }
    println!("{}: stored answers: {agreed} agree, {differing} differ", folder.display());
    Ok(differing == 0 && agreed > 0)
}

pub fn load_agrees(case: &Case) -> Option<bool> {
    let (number, place) = listing::load(&case.listing).map_or_else(|r| (r.number, r.place), |_| (0, 0));
    Some(format!("{number}\t{place}\n") == case.load)
}

pub fn session_agrees(case: &Case) -> Option<bool> {
    Some(session(&case.listing, &case.trace, 1_000_000).as_ref() == Some(&case.expected))
}

pub fn calls_agree(case: &Case) -> Option<bool> {
    let (calls, stored) = case.calls.as_ref()?;
    let given: String = answers(&case.listing, calls).iter().map(answer_line).collect();
    Some(given == *stored)
}

fn plain_agrees(case: &Case) -> Option<bool> {
    let (calls, stored) = case.calls.as_ref()?;
    let mut plain = Plain::new(&listing::load(&case.listing).ok()?);
    let answers: String = calls.iter().map(|call| answer_line(&given(&mut plain, call))).collect();
    Some(answers == *stored)
}
