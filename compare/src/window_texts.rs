//! Watering schedules at random: windows that touch, overlap, nest, go over midnights or fill the week; and texts damaged in
//! one place.

use crate::random::Random;

const DAY: usize = 1_440;
const WEEK: usize = 7 * DAY;

/// Input, weekday 1 to 7, opening and closing minute.
type Line = [usize; 4];

/// Dates at which a calendar goes wrong, real ones.
const DATES: [[usize; 3]; 20] = [
    [2000, 1, 1],
    [2000, 2, 28],
    [2000, 2, 29],
    [2000, 3, 1],
    [2000, 12, 31],
    [2001, 1, 1],
    [2004, 2, 29],
    [2024, 2, 29],
    [2024, 12, 31],
    [2096, 2, 29],
    [2099, 12, 31],
    [2100, 1, 1],
    [2100, 2, 28],
    [2100, 3, 1],
    [2100, 12, 31],
    [2104, 2, 29],
    [2196, 2, 29],
    [2199, 2, 28],
    [2199, 3, 1],
    [2199, 12, 31],
];

/// A real date: one of those above, one of a week (every weekday), or any with a day up to the 28th.
fn date(random: &mut Random) -> [usize; 3] {
    match random.below(4) {
        0 => *random.pick(&DATES),
        1 => [2024, 4, 1 + random.below(7)],
        _ => [2000 + random.below(200), 1 + random.below(12), 1 + random.below(28)],
    }
}

/// Dates just past what is real.
const UNREAL: [[usize; 3]; 14] = [
    [2100, 2, 29],
    [2000, 2, 30],
    [2001, 2, 29],
    [2024, 2, 30],
    [2199, 2, 29],
    [2024, 4, 31],
    [2024, 6, 31],
    [2024, 9, 31],
    [2024, 11, 31],
    [2024, 12, 32],
    [2024, 0, 1],
    [2024, 13, 1],
    [1999, 12, 31],
    [2200, 1, 1],
];

/// A date at the end of any month, real or not, or one that is not.
fn doubtful_date(random: &mut Random) -> [usize; 3] {
    if random.once_in(3) {
        return *random.pick(&UNREAL);
    }
    let year = *random.pick(&[1999, 2000, 2001, 2023, 2024, 2096, 2099, 2100, 2101, 2104, 2196, 2199, 2200, 2400]);
    [year, random.below(14), *random.pick(&[0, 1, 28, 29, 29, 29, 30, 31, 32])]
}

// ---- windows

/// Two different minutes of a day, rising.
fn two(random: &mut Random, grid: usize) -> (usize, usize) {
    let steps = DAY / grid;
    let opening = random.below(steps);
    (opening * grid, (opening + 1 + random.below(steps - opening)) * grid)
}

/// Lines whose union is so many minutes of the week from a minute on, over midnights and the week's end: pieces that touch,
/// cut at midnights and elsewhere, some of them once more, some lengthened over the next piece.
fn stretch(random: &mut Random, lines: &mut Vec<Line>, input: usize, from: usize, length: usize) {
    let longest = *random.pick(&[DAY, DAY, 700, 90]);
    let (mut minute, end) = (from, from + length);
    while minute < end {
        let (day, at) = (minute / DAY, minute % DAY);
        let last = (end - day * DAY).min(DAY);
        let next = last.min(at + 1 + random.below(longest));
        let closing = if random.once_in(3) { next + random.below(last - next + 1) } else { next };
        let line = [input, 1 + day % 7, at, closing];
        lines.push(line);
        if random.once_in(9) {
            lines.push(line);
        }
        minute += next - at;
    }
}

/// A window, and others inside it that may share its opening or its closing.
fn nested(random: &mut Random, lines: &mut Vec<Line>, input: usize) {
    let (weekday, (opening, closing)) = (1 + random.below(7), two(random, 1));
    lines.push([input, weekday, opening, closing]);
    for _ in 0..1 + random.below(4) {
        let inner = opening + random.below(closing - opening);
        lines.push([input, weekday, inner, inner + 1 + random.below(closing - inner)]);
    }
}

/// The windows of one input.
fn windows(random: &mut Random, lines: &mut Vec<Line>, input: usize) {
    let from = if random.once_in(2) { random.below(WEEK) } else { random.below(7) * DAY };
    let many = if random.once_in(8) { 40 + random.below(80) } else { 1 + random.below(6) };
    match random.below(10) {
        kind @ 0..=3 => {
            let some = 1 + random.below(5 * DAY);
            stretch(random, lines, input, from, [WEEK, WEEK - 1, WEEK - some, some][kind]);
        }
        4 => nested(random, lines, input),
        5 => {
            // Minutes beside midnight.
            for _ in 0..many {
                let opening = *random.pick(&[0, 0, 1, 2, DAY - 3, DAY - 2, DAY - 1, DAY - 1]);
                let closing = DAY.min(opening + 1 + random.below(2));
                lines.push([input, 1 + random.below(7), opening, closing]);
            }
        }
        kind => {
            let grid = if kind < 8 { *random.pick(&[30, 240, 360, 720]) } else { 1 };
            for _ in 0..many {
                let (opening, closing) = two(random, grid);
                lines.push([input, 1 + random.below(7), opening, closing]);
            }
        }
    }
}

/// A line with a figure at a limit, or just past it.
fn doubtful(random: &mut Random) -> Line {
    let input = *random.pick(&[0, 15, 16]);
    let weekday = *random.pick(&[0, 1, 7, 8]);
    let minute = *random.pick(&[0, 1, 720, DAY - 1, DAY]);
    match random.below(4) {
        0 => [input, 1 + random.below(7), minute.min(DAY - 1), DAY],
        1 => [random.below(16), weekday, minute.min(DAY - 1), DAY],
        2 => [random.below(16), 1 + random.below(7), minute, minute + random.below(2)],
        _ => [random.below(16), 1 + random.below(7), minute, random.below(DAY + 2)],
    }
}

/// The windows of one input for another too, or what is left of their days.
fn follow(random: &mut Random, lines: &mut Vec<Line>) {
    let Some(&[leader, ..]) = random.pick_any(lines) else { return };
    let follower = random.below(16);
    let (own, after) = (lines.clone(), random.once_in(2));
    for [_, weekday, opening, closing] in own.into_iter().filter(|line| line[0] == leader) {
        match after {
            false => lines.push([follower, weekday, opening, closing]),
            true if closing < DAY => lines.push([follower, weekday, closing, DAY]),
            true => {}
        }
    }
}

fn shuffle<T>(random: &mut Random, list: &mut [T]) {
    (1..list.len()).for_each(|k| list.swap(k, random.below(k + 1)));
}

fn line(fields: &[usize]) -> String {
    fields.iter().map(usize::to_string).collect::<Vec<_>>().join("\t") + "\n"
}

/// A schedule in which every line has its form, and mostly its limits.
fn whole(random: &mut Random) -> String {
    let mut lines = Vec::new();
    let inputs = *random.pick(&[0, 1, 1, 1, 2, 2, 3, 5, 16]);
    for k in 0..inputs {
        let input = if inputs == 16 { k } else { random.below(16) };
        windows(random, &mut lines, input);
    }
    if random.once_in(4) {
        follow(random, &mut lines);
    }
    if random.once_in(6) {
        lines.extend_from_within(..);
    }
    if random.once_in(24) {
        lines.push(doubtful(random));
    }
    if !random.once_in(4) {
        shuffle(random, &mut lines);
    }
    let date = if random.once_in(12) { doubtful_date(random) } else { date(random) };
    line(&date) + &lines.iter().map(|fields| line(fields)).collect::<String>()
}

// ---- damage

/// Another figure in place of the one at or after `at`; `other` makes it.
fn change_figure(bytes: &mut Vec<u8>, at: usize, other: impl FnOnce(&str) -> String) {
    let Some(from) = bytes[at..].iter().position(u8::is_ascii_digit).map(|p| at + p) else { return };
    let end = bytes[from..].iter().position(|byte| !byte.is_ascii_digit()).map_or(bytes.len(), |p| from + p);
    let figure = String::from_utf8(bytes[from..end].to_vec()).expect("digits");
    bytes.splice(from..end, other(&figure).into_bytes());
}

/// A long figure; most have the same last bits as the given one.
fn long(random: &mut Random, figure: &str) -> String {
    let value: u128 = figure.parse().unwrap_or(0);
    match random.below(8) {
        0 => figure.to_string() + &"0".repeat(1 + random.below(60)),
        1 => "9".repeat(1 + random.below(400)),
        2 => u128::MAX.to_string(),
        // 2 to the 128, and a little more.
        3 => format!("3402823669209384634633746074317682{:05}", 11_456 + value % 10_000),
        _ => {
            let bits = *random.pick(&[8, 11, 16, 31, 32, 32, 33, 63, 64, 64, 65, 96]);
            (value + (1 << bits) * (1 + random.below(3) as u128)).to_string()
        }
    }
}

const NEAR_LIMITS: [&str; 24] = [
    "0", "1", "2", "4", "7", "8", "9", "12", "13", "15", "16", "17", "28", "29", "30", "31", "32", "1439", "1440",
    "1441", "1999", "2100", "2199", "2200",
];

/// One change of one byte.
fn change_byte(random: &mut Random, bytes: &mut Vec<u8>, at: usize) {
    const BYTES: &[u8] = b"\t\t\n\n  00123456789-+.,:;/#PRE\r\0\x7f\x80\xb0\xff";
    let byte = *random.pick(BYTES);
    match random.below(6) {
        0 => bytes.insert(at, byte),
        1 if at < bytes.len() => bytes[at] = byte,
        2 if at < bytes.len() => drop(bytes.remove(at)),
        3 if at < bytes.len() => bytes.insert(at, bytes[at]),
        4 if at < bytes.len() => bytes[at] ^= 1 << random.below(8),
        _ => drop(bytes.splice(at..at, [byte; 2])),
    }
}

/// Another byte, or two, in place of a tab or a line feed at or after `at`; an empty field, a blank line.
fn change_break(random: &mut Random, bytes: &mut Vec<u8>, at: usize) {
    let wanted = *random.pick(b"\t\n");
    let Some(from) = bytes[at..].iter().position(|&byte| byte == wanted).map(|p| at + p) else { return };
    let others: [&[u8]; 14] = [
        b" ", b"\t", b"\n", b"", b"\t\t", b"\n\n", b"\r\n", b"\r", b"\t\n", b"\n\t", b" \n", b"\t0\n", b"\t ", b"\x0b",
    ];
    bytes.splice(from..from + 1, random.pick(&others).iter().copied());
}

/// The lines in another order, one of them gone, again, or without its first or last field.
fn change_lines(random: &mut Random, bytes: &mut Vec<u8>) {
    let mut lines: Vec<Vec<u8>> = bytes.split_inclusive(|&byte| byte == b'\n').map(<[u8]>::to_vec).collect();
    let at = random.below(lines.len().max(1));
    let Some(line) = lines.get(at).cloned() else { return };
    match random.below(6) {
        0 => drop(lines.remove(at)),
        1 => drop(lines.remove(0)),
        2 => lines.push(lines[0].clone()),
        3 => lines.swap(0, at),
        4 => lines[at] = line.into_iter().skip_while(|&byte| byte != b'\t').skip(1).collect(),
        _ => {
            let last = line.iter().rposition(|&byte| byte == b'\t').unwrap_or(0);
            lines[at] = [&line[..last], b"\n"].concat();
        }
    }
    *bytes = lines.concat();
}

/// Damage in one place; the text may have its form all the same.
fn damage(random: &mut Random, bytes: &mut Vec<u8>) {
    let at = random.below(bytes.len() + 1);
    match random.below(16) {
        0..=3 => change_byte(random, bytes, at),
        4 | 5 => change_break(random, bytes, at),
        6 => change_lines(random, bytes),
        7 | 8 => {
            let zeros = 1 + random.below(3);
            change_figure(bytes, at, |figure| "0".repeat(zeros) + figure)
        }
        9 | 10 => change_figure(bytes, at, |figure| long(random, figure)),
        11 | 12 => change_figure(bytes, at, |_| random.pick(&NEAR_LIMITS).to_string()),
        13 => change_figure(bytes, at, |figure| random.pick(&["-", "+", "٣", "０", "é"]).to_string() + figure),
        14 if random.once_in(6) => bytes.clear(),
        14 => bytes.truncate(at),
        _ => drop(bytes.pop()),
    }
}

/// The text of a schedule: most have their form, of the others most have one fault.
pub fn schedule(random: &mut Random) -> Vec<u8> {
    let mut bytes = whole(random).into_bytes();
    if random.once_in(3) {
        damage(random, &mut bytes);
    }
    if random.once_in(30) {
        damage(random, &mut bytes);
    }
    bytes
}
