//! An independent model of document 01 and of document 02's pages, divisions, presses and watering windows, compared with
//! stored answers, with the library and with a session program; and the benchmark. See README.md beside Cargo.toml.

// Without the library only a part of the commands is there.
#![cfg_attr(not(feature = "archive"), allow(dead_code))]

#[cfg(feature = "archive")]
mod bench;
#[cfg(feature = "archive")]
mod bench_listings;
#[cfg(feature = "archive")]
mod bench_pages;
#[cfg(feature = "archive")]
mod bench_queue;
#[cfg(feature = "archive")]
mod bench_windows;
#[cfg(feature = "archive")]
mod board;
mod call_lists;
mod calls;
#[cfg(feature = "archive")]
mod clock;
#[cfg(feature = "archive")]
mod compare;
#[cfg(feature = "archive")]
mod damage;
mod data;
mod expression;
mod flat;
mod layout;
mod listing;
#[cfg(feature = "archive")]
mod page_model;
#[cfg(feature = "archive")]
mod pages;
mod peer;
mod plain;
#[cfg(feature = "archive")]
mod plain_page;
mod plain_windows;
mod played;
mod presses;
mod programs;
mod questions;
mod queues;
mod random;
#[cfg(feature = "archive")]
mod report;
mod session;
mod signs;
#[cfg(feature = "archive")]
mod stack;
mod texts;
mod vectors;
mod walk;
mod window_cases;
mod window_data;
mod window_model;
mod window_texts;
mod windows;

use std::path::Path;
use std::process::exit;

const USAGE: &str = "usage: compare vectors FOLDER..
       compare data EXAMPLES OUT ADDED FOLDER [ADDED FOLDER]..
                                              (the cases of FOLDER, ADDED put to their numbers; a later folder's
                                              stand for the same ones of an earlier, its base/ corrects the first)
       compare session LISTING TRACE          (the model's print)
       compare answers [COUNT [SEED]]         (built with the library)
       compare bench [DATE]                   (built with the library)
       compare bench pages                    (the rows of the valve book's pages alone)
       compare bench windows                  (the rows of the watering windows alone)
       compare pages [COUNT [SEED]]           (built with the library)
       compare plain [COUNT [SEED]]
       compare plain windows [COUNT [SEED]]   (the plain version of the watering windows)
       compare windows [COUNT [SEED]]         (built with the library)
       compare windows-data FILE              (stored answers of watering windows)
       compare sessions PROGRAM [COUNT [SEED]]";

fn main() {
    let words: Vec<String> = std::env::args().skip(1).collect();
    let words: Vec<&str> = words.iter().map(String::as_str).collect();
    exit(match command(&words) {
        Some(true) => 0,
        Some(false) => 1,
        None => {
            eprintln!("{USAGE}");
            2
        }
    })
}

fn command(words: &[&str]) -> Option<bool> {
    let figure = |at: usize, otherwise: u64| words.get(at).map_or(Some(otherwise), |w| w.parse().ok());
    let told = |result: std::io::Result<bool>| result.map_err(|why| eprintln!("{why}")).unwrap_or(false);
    match words {
        ["vectors", folders @ ..] if !folders.is_empty() => Some(told(vectors::check_all(folders))),
        ["session", listing, trace] => Some(told(played::print(Path::new(listing), Path::new(trace)))),
        ["data", examples, out, folders @ ..] if !folders.is_empty() && folders.len() % 2 == 0 => {
            let added = folders.chunks(2).map(|two| Some((two[0].parse().ok()?, Path::new(two[1]))));
            Some(told(data::write(Path::new(examples), Path::new(out), &added.collect::<Option<Vec<_>>>()?)))
        }
        #[cfg(feature = "archive")]
        ["answers", ..] => Some(report::run(figure(1, 1_000_000)?, figure(2, 1)?)),
        #[cfg(feature = "archive")]
        ["bench", "pages"] => {
            bench_pages::pages();
            Some(true)
        }
        #[cfg(feature = "archive")]
        ["bench", "windows"] => {
            bench_windows::windows();
            Some(true)
        }
        #[cfg(feature = "archive")]
        ["bench", ..] => Some(bench::run(words.get(1).unwrap_or(&"undated"))),
        #[cfg(feature = "archive")]
        ["pages", ..] => Some(pages::run(figure(1, 100_000)?, figure(2, 1)?)),
        #[cfg(feature = "archive")]
        ["windows", ..] => Some(windows::run(figure(1, 100_000)?, figure(2, 1)?, windows::OTHERS)),
        ["windows-data", file] => Some(told(window_data::check(Path::new(file), windows::OTHERS))),
        ["plain", "windows", ..] => Some(windows::run(figure(2, 100_000)?, figure(3, 1)?, windows::PLAIN)),
        ["plain", ..] => Some(peer::run(figure(1, 200_000)?, figure(2, 1)?)),
        ["sessions", program, ..] => {
            Some(told(played::sessions(Path::new(program), figure(2, 20_000)?, figure(3, 1)?)))
        }
        _ => None,
    }
}
