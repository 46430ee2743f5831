//! Times of work, taken by turns.

pub const ROUNDS: usize = 7;
const ROUND_NANOSECONDS: f64 = 10e6;

/// The processor time of this process, in nanoseconds, so that other work on the machine counts
/// little.
fn processor_time() -> u64 {
    #[repr(C)]
    struct Time {
        seconds: i64,
        nanoseconds: i64,
    }
    extern "C" {
        fn clock_gettime(clock: i32, time: *mut Time) -> i32;
    }
    const CLOCK_PROCESS_CPUTIME_ID: i32 = 2;
    let mut time = Time { seconds: 0, nanoseconds: 0 };
    // SAFETY: the C library's function, on a struct laid out as its timespec on x86-64 Linux.
    let answered = unsafe { clock_gettime(CLOCK_PROCESS_CPUTIME_ID, &mut time) };
    assert_eq!(answered, 0);
    (time.seconds * 1_000_000_000 + time.nanoseconds) as u64
}

/// The time of a turn, over so many turns.
fn taken(work: &mut dyn FnMut(), turns: usize) -> f64 {
    let began = processor_time();
    (0..turns).for_each(|_| work());
    (processor_time() - began) as f64 / turns as f64
}

/// So many turns that a round is long enough to be measured.
fn turns(work: &mut dyn FnMut()) -> usize {
    let once = taken(work, 10).max(10.0);
    ((ROUND_NANOSECONDS / once) as usize).clamp(1, 1_000_000)
}

/// The least time of a turn of each, in nanoseconds, over several rounds that take turns.
pub fn beside<const N: usize>(mut works: [&mut dyn FnMut(); N]) -> [f64; N] {
    let turns: Vec<usize> = works.iter_mut().map(|work| turns(work)).collect();
    let mut least = [f64::INFINITY; N];
    for _ in 0..ROUNDS {
        for k in 0..N {
            least[k] = taken(works[k], turns[k]).min(least[k]);
        }
    }
    least
}

/// By how much a turn of the second takes longer than one of the first: the median over many short
/// batches that take turns, so that what else the machine does falls on both.
pub fn longer(first: &mut dyn FnMut(), second: &mut dyn FnMut()) -> f64 {
    const BATCHES: usize = 1_001;
    const TURNS: usize = 20;
    let mut differences: Vec<f64> = (0..BATCHES).map(|_| -taken(first, TURNS) + taken(second, TURNS)).collect();
    differences.sort_by(f64::total_cmp);
    differences[BATCHES / 2]
}
