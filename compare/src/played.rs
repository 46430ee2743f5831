//! Random sessions, played by a session program and by the model.

use crate::random::Random;
use crate::session::session;
use crate::texts;
use crate::walk::NUMBERS;
use std::io::Write;
use std::path::Path;
use std::process::Command;

/// Prints what the model says of one session.
pub fn print(listing: &Path, trace: &Path) -> std::io::Result<bool> {
    let printed = session(&std::fs::read(listing)?, &std::fs::read(trace)?, usize::MAX);
    std::io::stdout().write_all(&printed.expect("no bound on the instants"))?;
    Ok(true)
}

/// Sessions played by the program at this path; says whether all prints agreed.
pub fn sessions(program: &Path, sessions: u64, seed: u64) -> std::io::Result<bool> {
    let folder = std::env::temp_dir().join(format!("fabrwent-sessions-{}", std::process::id()));
    std::fs::create_dir_all(&folder)?;
    let (listing, trace) = (folder.join("listing"), folder.join("trace"));
    let mut codes = [0u64; NUMBERS];
    let mut same = true;
    for one in seed..seed.saturating_add(sessions) {
        let random = &mut Random::new(one ^ 0x5E55_1014);
        let text = texts::listing(random);
        let inputs = crate::listing::load(&text).map_or(2, |program| program.inputs);
        let mut lines = texts::trace(random, inputs);
        if random.once_in(200) {
            lines = lines.repeat(49_152 / lines.len().max(1) + random.below(2));
        }
        let Some(printed) = session(&text, &lines, 2_000) else { continue };
        std::fs::write(&listing, &text)?;
        std::fs::write(&trace, &lines)?;
        let got = Command::new(program).arg(&listing).arg(&trace).output()?.stdout;
        if got != printed {
            println!("session {one} differs\nlisting:\n{}", String::from_utf8_lossy(&text));
            println!("trace:\n{}", String::from_utf8_lossy(&lines));
            println!("printed:\n{}", String::from_utf8_lossy(&got));
            println!("the model has:\n{}", String::from_utf8_lossy(&printed));
            same = false;
            break;
        }
        codes[code(&printed)] += 1;
    }
    std::fs::remove_dir_all(&folder)?;
    println!("sessions {} from seed {seed}; by code:", codes.iter().sum::<u64>());
    for (code, times) in codes.iter().enumerate().filter(|(_, &times)| times > 0) {
        println!("{code:>6} {times:>10}");
    }
    println!("{}", if same { "no difference" } else { "a difference" });
    Ok(same)
}

/// The code of the last line that a session printed.
fn code(printed: &[u8]) -> usize {
    let text = String::from_utf8_lossy(printed);
    let last = text.lines().last().expect("a session prints its last line");
    last.split('\t').nth(1).expect("code").parse().expect("a figure")
}
