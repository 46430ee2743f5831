//! The watering windows in plain Rust, as a program with a heap does it: the windows sorted and merged, a sorted list of the
//! week's edges, and that list again for each week of the span. The benchmark's peer.

const MINUTE: u64 = 60_000;
const DAY_MINUTES: u32 = 1_440;
const WEEK_MINUTES: u32 = 7 * DAY_MINUTES;
const WEEK: u64 = WEEK_MINUTES as u64 * MINUTE;

/// A window in minutes of the week; sorts by input, then opening.
#[derive(Clone, Copy, PartialEq, Eq, PartialOrd, Ord)]
struct Window {
    input: u32,
    opening: u32,
    closing: u32,
}

/// An edge, in milliseconds from the week's beginning; sorts by moment, then input.
#[derive(Clone, Copy, PartialEq, Eq, PartialOrd, Ord)]
struct Edge {
    at: u64,
    input: u32,
    value: u32,
}

/// A figure of at most four digits: a longer one is above every limit.
fn figure(field: &[u8]) -> Option<u32> {
    if field.is_empty() || field.len() > 4 || (field.len() > 1 && field[0] == b'0') {
        return None;
    }
    field.iter().try_fold(0, |n, byte| byte.is_ascii_digit().then(|| n * 10 + u32::from(byte - b'0')))
}

fn figures<const N: usize>(line: &[u8]) -> Option<[u32; N]> {
    let mut fields = line.split(|&byte| byte == b'\t');
    let mut figures = [0; N];
    for place in &mut figures {
        *place = figure(fields.next()?)?;
    }
    fields.next().is_none().then_some(figures)
}

/// The weekday of the date, 0 for a Monday (Sakamoto's rule).
fn weekday(line: &[u8]) -> Option<u32> {
    const SHIFT: [u32; 12] = [0, 3, 2, 5, 0, 3, 5, 1, 4, 6, 2, 4];
    let [year, month, day] = figures(line)?;
    let leap = year % 4 == 0 && year % 100 != 0 || year % 400 == 0;
    let days = [31, 28 + u32::from(leap), 31, 30, 31, 30, 31, 31, 30, 31, 30, 31];
    let index = (month as usize).checked_sub(1)?;
    if !(2000..2200).contains(&year) || day == 0 || day > *days.get(index)? {
        return None;
    }
    let year = year - u32::from(month < 3);
    Some((year + year / 4 - year / 100 + year / 400 + SHIFT[index] + day + 6) % 7)
}

fn window(line: &[u8]) -> Option<Window> {
    let [input, weekday, opening, closing] = figures(line)?;
    if input > 15 || weekday == 0 || weekday > 7 || opening >= closing || closing > DAY_MINUTES {
        return None;
    }
    let midnight = (weekday - 1) * DAY_MINUTES;
    Some(Window { input, opening: midnight + opening, closing: midnight + closing })
}

/// The weekday of moment 0 and the windows, sorted; none: 19.
fn parsed(text: &[u8]) -> Option<(u32, Vec<Window>)> {
    let mut lines = text.strip_suffix(b"\n")?.split(|&byte| byte == b'\n');
    let weekday = weekday(lines.next()?)?;
    let mut windows = lines.map(window).collect::<Option<Vec<Window>>>()?;
    windows.sort_unstable();
    Some((weekday, windows))
}

/// The union of one input's windows, sorted, as openings and closings; the last one may close after the week's end.
fn merged(windows: &[Window]) -> Vec<(u32, u32)> {
    let mut union: Vec<(u32, u32)> = Vec::new();
    for window in windows {
        match union.last_mut() {
            Some((_, closing)) if window.opening <= *closing => *closing = window.closing.max(*closing),
            _ => union.push((window.opening, window.closing)),
        }
    }
    if union.len() > 1 && union[0].0 == 0 && union[union.len() - 1].1 == WEEK_MINUTES {
        let (_, closing) = union.remove(0);
        union.last_mut().expect("another one").1 += closing;
    }
    union
}

/// The edges of the week from moment 0, sorted.
fn week(weekday: u32, windows: &[Window]) -> Vec<Edge> {
    let mut edges = Vec::with_capacity(2 * windows.len());
    let beginning = weekday * DAY_MINUTES;
    let at = |minute: u32| u64::from((minute + WEEK_MINUTES - beginning) % WEEK_MINUTES) * MINUTE;
    for one_input in windows.chunk_by(|a, b| a.input == b.input) {
        let input = one_input[0].input;
        for (opening, closing) in merged(one_input) {
            if closing - opening < WEEK_MINUTES {
                edges.push(Edge { at: at(opening), input, value: 1 });
                edges.push(Edge { at: at(closing), input, value: 0 });
            }
        }
    }
    edges.sort_unstable();
    edges
}

/// How many edges lie before a moment, one at moment 0 too.
fn before(edges: &[Edge], moment: u64) -> u64 {
    moment / WEEK * edges.len() as u64 + edges.partition_point(|edge| edge.at < moment % WEEK) as u64
}

/// Puts the edges into the lists, which are as long as they are many: the first is edge `first` counted from moment 0.
fn emit(edges: &[Edge], first: u64, moments: &mut [u64], inputs: &mut [u32], values: &mut [u32]) {
    let (mut week, mut next) = (first / edges.len() as u64, (first % edges.len() as u64) as usize);
    let (count, mut place) = (moments.len(), 0);
    while place < count {
        let now = &edges[next..edges.len().min(next + count - place)];
        let lists = moments[place..].iter_mut().zip(&mut inputs[place..]).zip(&mut values[place..]);
        for (edge, ((moment, input), value)) in now.iter().zip(lists) {
            *moment = week * WEEK + edge.at;
            *input = edge.input;
            *value = edge.value;
        }
        place += now.len();
        (week, next) = (week + 1, 0);
    }
}

/// Number and edges listed.
pub fn windows(
    text: &[u8],
    from: u64,
    to: u64,
    moments: &mut [u64],
    inputs: &mut [u32],
    values: &mut [u32],
) -> (u32, u64) {
    let Some((weekday, windows)) = parsed(text) else { return (19, 0) };
    let edges = week(weekday, &windows);
    let first = before(&edges, from.max(1));
    let count = before(&edges, to).saturating_sub(first);
    if count > moments.len().min(inputs.len()).min(values.len()) as u64 {
        return (1, 0);
    }
    if count > 0 {
        let listed = count as usize;
        emit(&edges, first, &mut moments[..listed], &mut inputs[..listed], &mut values[..listed]);
    }
    (0, count)
}
