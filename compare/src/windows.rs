//! Watering windows: the library and the benchmark's plain version beside the model, over calls made at random.

use crate::plain_windows;
use crate::window_cases::{case, Asked, Lists, Windows, WEEK};
use crate::window_model::{self, read, Told};
use std::fmt::Write;

/// Whom the model is held against, and by what call.
pub type Other = (&'static str, Windows);

pub const OTHERS: &[Other] = &[
    #[cfg(feature = "archive")]
    ("the library", library),
    ("the plain version", plain),
];
/// The plain version alone.
pub const PLAIN: &[Other] = &[("the plain version", plain)];

fn plain(text: &[u8], from: u64, to: u64, moments: &mut [u64], inputs: &mut [u32], values: &mut [u32]) -> Told {
    let (number, listed) = plain_windows::windows(text, from, to, moments, inputs, values);
    Told { number, place: 0, listed }
}

#[cfg(feature = "archive")]
#[repr(C)]
struct Listed {
    number: u32,
    place: u32,
    listed: u64,
}

#[cfg(feature = "archive")]
extern "C" {
    fn fabrwent_windows(
        schedule: *const u8,
        schedule_length: usize,
        from: u64,
        to: u64,
        moments: *mut u64,
        moments_length: usize,
        inputs: *mut u32,
        inputs_length: usize,
        values: *mut u32,
        values_length: usize,
    ) -> Listed;
}

/// The library's call.
#[cfg(feature = "archive")]
pub fn library(text: &[u8], from: u64, to: u64, moments: &mut [u64], inputs: &mut [u32], values: &mut [u32]) -> Told {
    // SAFETY: the pointers and lengths are those of four slices that live through the call and are apart.
    let Listed { number, place, listed } = unsafe {
        fabrwent_windows(
            text.as_ptr(),
            text.len(),
            from,
            to,
            moments.as_mut_ptr(),
            moments.len(),
            inputs.as_mut_ptr(),
            inputs.len(),
            values.as_mut_ptr(),
            values.len(),
        )
    };
    Told { number, place, listed }
}

// ---- the comparison

#[derive(Default)]
struct Counts {
    by_number: [u64; 20],
    edges: u64,
    last_week: u64,
    last_week_edges: u64,
}

impl Counts {
    fn add(&mut self, asked: &Asked, told: Told) {
        self.by_number[told.number as usize] += 1;
        self.edges += told.listed;
        if asked.from < asked.to && asked.from > u64::MAX - WEEK {
            self.last_week += 1;
            self.last_week_edges += told.listed;
        }
    }
}

/// A call and what came of it, in the form of the stored cases; of lists that were not left as they were, every place.
fn shown(asked: &Asked, told: Told, after: &Lists) -> String {
    let bytes: String = asked.schedule.iter().map(|byte| format!(" {byte}")).collect();
    let [m, i, v] = asked.lists.rooms();
    let Told { number, place, listed } = told;
    let mut out =
        format!("schedule{bytes}\nspan {} {}\nrooms {m} {i} {v}\n= {number} {place} {listed}\n", asked.from, asked.to);
    for (k, (now, before)) in after.places().zip(asked.lists.places()).enumerate() {
        if now != before {
            let figures = now.map(|figure| figure.map_or("-".to_string(), |figure| figure.to_string()));
            writeln!(out, "edge {} (place {k})", figures.join(" ")).expect("a text grows");
        }
    }
    out
}

/// The document's sentence, of the model's own list: after a span from moment 0 on, an input is in its union exactly if its
/// last edge opened, or if it has none and was open at moment 0.
fn sentence_holds(asked: &Asked, told: Told) -> bool {
    if told.number != 0 || asked.from > 1 || asked.to < 2 {
        return true;
    }
    let schedule = read(&asked.schedule).expect("its number is 0");
    let edges = schedule.edges(asked.from, asked.to);
    (0..16).all(|input| {
        let last = edges.iter().rfind(|edge| edge.input as usize == input);
        let opened = last.map_or(schedule.in_union(0, input), |edge| edge.value == 1);
        opened == schedule.in_union(asked.to - 1, input)
    })
}

/// One call, of the model and of the others; what differs, if anything does.
fn compare(asked: &Asked, others: &[Other], counts: &mut Counts) -> Result<(), String> {
    let (told, after) = asked.answer(window_model::windows);
    if !sentence_holds(asked, told) {
        return Err(format!("the model's edges are not those of its union\n{}", shown(asked, told, &after)));
    }
    for (who, windows) in others {
        let (theirs, lists) = asked.answer(*windows);
        if theirs != told || lists != after {
            let text = String::from_utf8_lossy(&asked.schedule);
            let (model, other) = (shown(asked, told, &after), shown(asked, theirs, &lists));
            return Err(format!("{text:?}\nthe model:\n{model}{who}:\n{other}"));
        }
    }
    counts.add(asked, told);
    Ok(())
}

/// So many calls; says whether all agreed.
pub fn run(count: u64, seed: u64, others: &[Other]) -> bool {
    let mut counts = Counts::default();
    for one in seed..seed.saturating_add(count) {
        if let Err(difference) = compare(&case(one), others, &mut counts) {
            println!("windows case {one} differs: {difference}");
            return false;
        }
    }
    let names: Vec<&str> = others.iter().map(|(who, _)| *who).collect();
    println!("windows {count} from seed {seed}: {} beside the model", names.join(" and "));
    println!(
        "edges {}; spans in the last week before 2 to the 64: {}, with {} edges; by number:",
        counts.edges, counts.last_week, counts.last_week_edges
    );
    for number in [0, 1, 19] {
        println!("{number:>6} {:>10}", counts.by_number[number]);
    }
    println!("no difference");
    true
}
