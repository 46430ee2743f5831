//! The session: a listing file and a trace file, and what is printed for them.

use crate::listing::{figure_below, literal, load, Program, LONGEST_FILE};
use crate::walk::{Answer, Machine};

/// "allowance 10,000"
const ALLOWANCE: u32 = 10_000;

/// Why a session goes no further.
enum Ending {
    Code(u32),
    TooManyInstants,
}

/// A line of the trace: "`I|time|input|value` (64, 32 and signed 32 bits)" or "`Q|time`".
#[derive(Clone, Copy)]
enum Entry {
    Input(u64, (u32, i32)),
    Last(u64),
}

/// The printed bytes; none if there are more instants after the start than `most_instants`.
pub fn session(text: &[u8], trace: &[u8], most_instants: usize) -> Option<Vec<u8>> {
    let (program, machine, answer) = match begin(text, trace) {
        Ok(begun) => begun,
        Err(code) => return Some(format!("X\t{code}\t0\n").into_bytes()),
    };
    let printed = String::new();
    let mut run = Run { program, machine, printed, moment: 0, left: most_instants };
    run.finish(0, &answer);
    let code = match run.follow(trace) {
        Ok(()) => 0,
        Err(Ending::Code(code)) => code,
        Err(Ending::TooManyInstants) => return None,
    };
    // "then `X|code|present moment`"
    run.printed += &format!("X\t{code}\t{}\n", run.moment);
    Some(run.printed.into_bytes())
}

/// "Before loading, a listing over 49,152 bytes has code 3, else a trace over 49,152 code 2."
/// Then the listing is loaded and the machine started.
fn begin(text: &[u8], trace: &[u8]) -> Result<(Program, Machine, Answer), u32> {
    if text.len() > LONGEST_FILE {
        return Err(3);
    }
    if trace.len() > LONGEST_FILE {
        return Err(2);
    }
    let program = load(text).map_err(|refusal| refusal.number)?;
    let (machine, answer) = Machine::start(&program, ALLOWANCE)?;
    Ok((program, machine, answer))
}

/// A started machine, what is printed so far, and the moment of the last finished instant.
struct Run {
    program: Program,
    machine: Machine,
    printed: String,
    moment: u64,
    left: usize,
}

impl Run {
    fn follow(&mut self, trace: &[u8]) -> Result<(), Ending> {
        let mut entries = trace.split_inclusive(|&byte| byte == b'\n').map(entry).peekable();
        loop {
            match entries.next() {
                Some(Some(Entry::Input(time, input))) => {
                    // "neighbours of equal time forming one call"
                    let mut inputs = vec![input];
                    while let Some(&Some(Entry::Input(next, input))) = entries.peek() {
                        if next != time {
                            break;
                        }
                        inputs.push(input);
                        entries.next();
                    }
                    self.make_due(|due| due < time)?;
                    self.instant(time, &inputs)?;
                }
                // "and those due up to Q's time"
                Some(Some(Entry::Last(time))) => {
                    self.make_due(|due| due <= time)?;
                    break;
                }
                // "A line out of form when it is reached, one after `Q`, or no `Q` at the end
                // has code 2, after the call of the lines before it."
                Some(None) | None => return Err(Ending::Code(2)),
            }
        }
        match entries.next() {
            Some(_) => Err(Ending::Code(2)),
            None => Ok(()),
        }
    }

    /// "The program makes every due instant between"
    fn make_due(&mut self, wanted: impl Fn(u64) -> bool) -> Result<(), Ending> {
        while let Some(due) = self.machine.due().filter(|&due| wanted(due)) {
            self.instant(due, &[])?;
        }
        Ok(())
    }

    /// "the first refusal or stop ends it"
    fn instant(&mut self, t: u64, inputs: &[(u32, i32)]) -> Result<(), Ending> {
        let answer = self.machine.instant(&self.program, t, inputs, ALLOWANCE);
        if (1..=12).contains(&answer.number) {
            return Err(Ending::Code(answer.number));
        }
        self.left = self.left.checked_sub(1).ok_or(Ending::TooManyInstants)?;
        if answer.number != 0 {
            return Err(Ending::Code(answer.number));
        }
        self.finish(t, &answer);
        Ok(())
    }

    /// "It prints `O|time|output|value` for each write". "The moment is that of the last
    /// finished instant, 0 if there is none."
    fn finish(&mut self, t: u64, answer: &Answer) {
        self.moment = t;
        for (output, value) in &answer.outputs {
            self.printed += &format!("O\t{t}\t{output}\t{value}\n");
        }
    }
}

/// A line "in the listing's style", closed by a line feed; none if it is out of form.
fn entry(closed: &[u8]) -> Option<Entry> {
    let line = closed.strip_suffix(b"\n")?;
    let fields: Vec<&[u8]> = line.split(|&byte| byte == b'\t').collect();
    match fields.as_slice() {
        [b"I", time, input, value] => {
            let input = figure_below(input, 32)? as u32;
            Some(Entry::Input(figure_below(time, 64)?, (input, literal(value)?)))
        }
        [b"Q", time] => figure_below(time, 64).map(Entry::Last),
        _ => None,
    }
}
