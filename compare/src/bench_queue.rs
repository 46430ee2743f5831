//! A queue of waiting writes as an engine would make it anew in each call, for the benchmark.

/// The waiting writes in a machine's words, block by block (docs/LAYOUT.md): variable and moment.
pub fn waiting_writes(machine: &[u32]) -> impl Iterator<Item = (usize, u64)> + '_ {
    let blocks = machine[328..].chunks_exact(184).enumerate().filter(|(_, block)| block[0] != 0);
    let variables = blocks.flat_map(|(s, block)| {
        block[8..].chunks_exact(6).take(block[4] as usize).enumerate().map(move |(i, v)| (16 * s + i, v))
    });
    variables.map(|(place, v)| (place, u64::from(v[2]) + (u64::from(v[3]) << 32))).filter(|&(_, due)| due != 0)
}

/// An event queue by moment, one place a variable: a heap that knows where each variable stands, so
/// that a new waiting write can take the place of the old one.
pub struct Queue {
    pub heap: Vec<(u64, usize)>,
    places: Vec<u16>,
}

impl Queue {
    pub fn new() -> Queue {
        Queue { heap: Vec::with_capacity(1_040), places: vec![u16::MAX; 1_040] }
    }

    pub fn insert(&mut self, variable: usize, due: u64) {
        let mut at = self.heap.len();
        self.heap.push((due, variable));
        while at > 0 && self.heap[(at - 1) / 2].0 > due {
            self.heap[at] = self.heap[(at - 1) / 2];
            self.places[self.heap[at].1] = at as u16;
            at = (at - 1) / 2;
        }
        self.heap[at] = (due, variable);
        self.places[variable] = at as u16;
    }

    pub fn clear(&mut self) {
        self.heap.drain(..).for_each(|(_, variable)| self.places[variable] = u16::MAX);
    }
}
