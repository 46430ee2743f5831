//! A page of the valve book in plain Rust, in one pass over the writes that puts the questions too: the benchmark's peer.
//! The openings of a moment are a mask of outputs, and get their numbers when the moment is over.

const PAGE: usize = 2_700;
const ROW: usize = 45;
const ON_PAGE: u64 = 59;
const HEADING: &[u8; ROW] = b"NR               OPENED             OPEN FOR\n";

fn put_figure(columns: &mut [u8], mut n: u64) {
    let mut k = columns.len();
    loop {
        k -= 1;
        columns[k] = b'0' + (n % 10) as u8;
        n /= 10;
        if n == 0 {
            break;
        }
    }
    columns[..k].fill(b' ');
}

struct Book {
    bytes: [u8; PAGE],
    first: u64,
    count: u64,
    /// outputs that are open, and those of them that opened in this moment
    open: u32,
    fresh: u32,
    /// the line of an open valve's row, 0 if it stands on another page, and the moment opened
    line: [u8; 16],
    opened: [u64; 16],
}

impl Book {
    fn new(page: u64) -> Book {
        let mut bytes = [b' '; PAGE];
        bytes.chunks_exact_mut(ROW).for_each(|row| row[ROW - 1] = b'\n');
        let first = if page == 0 { u64::MAX } else { (page - 1).saturating_mul(ON_PAGE) };
        Book { bytes, first, count: 0, open: 0, fresh: 0, line: [0; 16], opened: [0; 16] }
    }

    /// The openings of the moment get their numbers, by output.
    fn end_moment(&mut self, moment: u64) {
        while self.fresh != 0 {
            let output = self.fresh.trailing_zeros() as usize & 15;
            self.fresh &= self.fresh - 1;
            let here = self.count.checked_sub(self.first).filter(|&place| place < ON_PAGE);
            self.count += 1;
            self.line[output] = 0;
            if let Some(place) = here {
                self.line[output] = place as u8 + 1;
                let row = &mut self.bytes[(place as usize + 1) * ROW..][..ROW];
                put_figure(&mut row[..2], output as u64);
                put_figure(&mut row[3..23], moment);
                row[24..44].fill(b'-');
            }
        }
    }

    fn write(&mut self, moment: u64, output: usize, value: u32) {
        let bit = 1u32 << output;
        if value == 0 {
            if self.open & bit != 0 {
                self.open &= !bit;
                let line = self.line[output] as usize;
                if line != 0 {
                    put_figure(&mut self.bytes[line * ROW + 24..][..20], moment - self.opened[output]);
                }
            }
        } else if self.open & bit == 0 {
            self.open |= bit;
            self.fresh |= bit;
            self.opened[output] = moment;
        }
    }
}

/// Number and pages; the memory's first 2,700 bytes are the page.
pub fn page(moments: &[u64], outputs: &[u32], values: &[u32], page: u64, memory: &mut [u8]) -> (u32, u64) {
    if memory.len() < PAGE || moments.len() != outputs.len() || moments.len() != values.len() {
        return (1, 0);
    }
    let mut book = Book::new(page);
    let (mut now, mut seen, mut bad) = (0, 0u32, false);
    for ((&moment, &output), &value) in moments.iter().zip(outputs).zip(values) {
        if moment != now {
            if moment < now {
                return (9, 0);
            }
            book.end_moment(now);
            (now, seen) = (moment, 0);
        }
        if output >= 16 {
            bad = true;
            continue;
        }
        bad |= seen >> output & 1 != 0;
        seen |= 1 << output;
        book.write(moment, output as usize & 15, value);
    }
    if bad {
        return (11, 0);
    }
    book.end_moment(now);
    let pages = if book.count == 0 { 1 } else { (book.count - 1) / ON_PAGE + 1 };
    if page >= 1 && page <= pages {
        book.bytes[..ROW].copy_from_slice(HEADING);
    }
    memory[..PAGE].copy_from_slice(&book.bytes);
    (0, pages)
}
