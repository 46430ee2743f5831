//! A model of the watering windows, written from document 02's Change 5 and a page of readings by someone who had read no definition
//! and no code of them, but had stored answers to try it on. Its readings: READINGS.md, "Watering windows".
//! It is meant to be plainly right, not fast: the union is a table of the week's minutes, a bit for each input.

const MINUTE: u128 = 60_000;
const DAY_MINUTES: usize = 1_440;
const WEEK_MINUTES: usize = 7 * DAY_MINUTES;
const DAY: u128 = DAY_MINUTES as u128 * MINUTE;
const WEEK: u128 = 7 * DAY;
const INPUTS: usize = 16;

/// The result of a call.
#[derive(Clone, Copy, Debug, PartialEq)]
pub struct Told {
    pub number: u32,
    pub place: u32,
    pub listed: u64,
}

/// What is given to an input: 1 at an opening, 0 at a closing.
#[derive(Clone, Copy, Debug, PartialEq)]
pub struct Edge {
    pub moment: u64,
    pub input: u32,
    pub value: u32,
}

// ---- the text

/// A figure: digits alone, at least one, no leading zero. It may have any length; what passes 64 bits is above every limit.
fn figure(field: &[u8]) -> Option<u64> {
    let digits_alone = !field.is_empty() && field.iter().all(u8::is_ascii_digit);
    let leading_zero = field.len() > 1 && field[0] == b'0';
    if !digits_alone || leading_zero {
        return None;
    }
    let digits = field.iter().map(|&byte| u64::from(byte - b'0'));
    Some(digits.fold(0, |n: u64, digit| n.saturating_mul(10).saturating_add(digit)))
}

/// The figures of a line of exactly N fields.
fn figures<const N: usize>(line: &[u8]) -> Option<[u64; N]> {
    let fields: Option<Vec<u64>> = line.split(|&byte| byte == b'\t').map(figure).collect();
    fields?.try_into().ok()
}

fn days_of_year(year: u64) -> u64 {
    let leap = year % 4 == 0 && (year % 100 != 0 || year % 400 == 0);
    365 + u64::from(leap)
}

fn days_of_month(year: u64, month: u64) -> u64 {
    match month {
        2 => days_of_year(year) - 337,
        4 | 6 | 9 | 11 => 30,
        _ => 31,
    }
}

/// The date's weekday, 0 for a Monday; none if the line gives no real date.
fn date(line: &[u8]) -> Option<u64> {
    let [year, month, day] = figures(line)?;
    if !(2000..=2199).contains(&year) || !(1..=12).contains(&month) || !(1..=days_of_month(year, month)).contains(&day)
    {
        return None;
    }
    let whole_years: u64 = (2000..year).map(days_of_year).sum();
    let whole_months: u64 = (1..month).map(|earlier| days_of_month(year, earlier)).sum();
    // The 1st of January 2000 was a Saturday.
    Some((5 + whole_years + whole_months + day - 1) % 7)
}

/// One line; the weekday is 0 for a Monday.
#[derive(Clone, Copy, Debug)]
struct Window {
    input: usize,
    weekday: usize,
    opening: usize,
    closing: usize,
}

fn window(line: &[u8]) -> Option<Window> {
    let [input, weekday, opening, closing] = figures(line)?;
    if input >= INPUTS as u64 || !(1..=7).contains(&weekday) || closing > DAY_MINUTES as u64 || opening >= closing {
        return None;
    }
    let [input, weekday, opening, closing] = [input, weekday - 1, opening, closing].map(|figure| figure as usize);
    Some(Window { input, weekday, opening, closing })
}

// ---- the schedule

pub struct Schedule {
    /// The weekday of moment 0, 0 for a Monday.
    weekday: usize,
    windows: Vec<Window>,
    /// The edges of the seven days from moment 0, as minute, input and value, by minute and then input; one at moment 0 too.
    week: Vec<(usize, u32, u32)>,
}

/// The schedule that the text is, or its first line with a no (question 19).
pub fn read(text: &[u8]) -> Result<Schedule, u64> {
    let mut lines: Vec<&[u8]> = text.split(|&byte| byte == b'\n').collect();
    let unclosed = lines.pop().expect("what stands after the last line feed");
    let weekday = lines.first().and_then(|line| date(line)).ok_or(1u64)? as usize;
    let mut windows = Vec::new();
    for (index, line) in lines.iter().enumerate().skip(1) {
        windows.push(window(line).ok_or(index as u64 + 1)?);
    }
    if !unclosed.is_empty() {
        return Err(lines.len() as u64 + 1);
    }
    let week = week(&open(weekday, &windows));
    Ok(Schedule { weekday, windows, week })
}

/// For each minute of the seven days from moment 0: the inputs that are open in it, a bit each.
fn open(weekday: usize, windows: &[Window]) -> Vec<u16> {
    let mut open = vec![0; WEEK_MINUTES];
    for one in windows {
        let midnight = (one.weekday + 7 - weekday) % 7 * DAY_MINUTES;
        open[midnight + one.opening..midnight + one.closing].iter_mut().for_each(|minute| *minute |= 1 << one.input);
    }
    open
}

/// An edge is where an input is not as it was the minute before; before the first minute was the last one.
fn week(open: &[u16]) -> Vec<(usize, u32, u32)> {
    let mut edges = Vec::new();
    let mut before = open[WEEK_MINUTES - 1];
    for (minute, &now) in open.iter().enumerate() {
        if now != before {
            let changed = (0..INPUTS).filter(|input| (now ^ before) >> input & 1 == 1);
            edges.extend(changed.map(|input| (minute, input as u32, u32::from(now >> input & 1))));
        }
        before = now;
    }
    edges
}

impl Schedule {
    /// Does the moment lie in the union of this input's windows, without their closing minutes? Asked of the lines.
    pub fn in_union(&self, moment: u64, input: usize) -> bool {
        let day = u128::from(moment) / DAY;
        let weekday = (self.weekday as u128 + day) % 7;
        let minute = u128::from(moment) % DAY / MINUTE;
        let holds = |one: &Window| {
            one.input == input
                && one.weekday as u128 == weekday
                && (one.opening as u128..one.closing as u128).contains(&minute)
        };
        self.windows.iter().any(holds)
    }

    pub fn week(&self) -> &[(usize, u32, u32)] {
        &self.week
    }

    /// How many edges lie before a moment, one at moment 0 too.
    fn before(&self, moment: u64) -> u128 {
        let (weeks, rest) = (u128::from(moment) / WEEK, u128::from(moment) % WEEK);
        let this_week = self.week.iter().filter(|edge| edge.0 as u128 * MINUTE < rest).count();
        weeks * self.week.len() as u128 + this_week as u128
    }

    /// How many edges the span has; nothing is written at moment 0.
    pub fn count(&self, from: u64, to: u64) -> u128 {
        let from = from.max(1);
        if from < to {
            self.before(to) - self.before(from)
        } else {
            0
        }
    }

    /// The edges of the span, by moment and then input.
    pub fn edges(&self, from: u64, to: u64) -> Vec<Edge> {
        let mut edges = Vec::new();
        if self.week.is_empty() {
            return edges;
        }
        let (from, to) = (u128::from(from.max(1)), u128::from(to));
        for number in from / WEEK..=to / WEEK {
            for &(minute, input, value) in &self.week {
                let moment = number * WEEK + minute as u128 * MINUTE;
                if from <= moment && moment < to {
                    edges.push(Edge { moment: moment as u64, input, value });
                }
            }
        }
        edges
    }
}

// ---- the call

fn refusal(number: u32) -> Told {
    Told { number, place: 0, listed: 0 }
}

pub fn windows(text: &[u8], from: u64, to: u64, moments: &mut [u64], inputs: &mut [u32], values: &mut [u32]) -> Told {
    // Question 19.
    let Ok(schedule) = read(text) else { return refusal(19) };

    // Question 1.
    let count = schedule.count(from, to);
    let rooms = [moments.len(), inputs.len(), values.len()];
    if rooms.iter().any(|&room| (room as u128) < count) {
        return refusal(1);
    }

    let edges = schedule.edges(from, to);
    assert_eq!(edges.len() as u128, count);
    for (place, edge) in edges.iter().enumerate() {
        moments[place] = edge.moment;
        inputs[place] = edge.input;
        values[place] = edge.value;
    }
    Told { number: 0, place: 0, listed: edges.len() as u64 }
}
