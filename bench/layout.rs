// The run to the end in plain Rust with the same rules and layout as ours: it works on the words of the room, and goes over N of them to test and to paint R.

use super::plain::{is_graph, room_size, Tally};

const FRESH: u16 = 0;
const OUTER: u16 = 1;
const INNER: u16 = 2;
const WAITING: u16 = 3;
const DONE: u16 = 4;

struct Run<'a> {
    room: &'a mut [u16],
    offsets: &'a [u16],
    targets: &'a [u16],
    flags: &'a [u16],
    n: usize,
    workers: usize,
}

impl Run<'_> {
    fn successor(&self, p: usize, s: usize, k: usize) -> Option<u16> {
        let from = self.offsets[s] as usize;
        let d = self.offsets[s + 1] as usize - from;
        if k < d {
            let r = p % d + k;
            return Some(self.targets[from + if r < d { r } else { r - d }]);
        }
        None
    }

    fn stretch(&self, p: usize) -> usize {
        2 * self.n + p * (5 * self.n + 4)
    }

    // The top leaves the outer stack: the stretch at a, its top s.
    fn pop_outer(&mut self, a: usize, s: usize) {
        let n = self.n;
        let depth = self.room[a + 5 * n + 2] - 1;
        self.room[a + s] = 0;
        self.room[a + 2 * n + depth as usize] = 0;
        self.room[a + 4 * n + s] = 0;
        self.room[a + 5 * n] = if depth == 0 { DONE } else { OUTER };
        self.room[a + 5 * n + 1] = 0;
        self.room[a + 5 * n + 2] = depth;
    }

    // One turn of worker p; the state taken at "cycle".
    fn turn(&mut self, tally: &mut Tally, p: usize) -> Option<u16> {
        let n = self.n;
        let a = self.stretch(p);
        match self.room[a + 5 * n] {
            FRESH => {
                self.room[a] = 1;
                self.room[a + 2 * n] = 0;
                self.room[a + 5 * n] = OUTER;
                self.room[a + 5 * n + 2] = 1;
                tally.outer += 1;
                tally.moves += 1;
            }
            OUTER => {
                let depth = self.room[a + 5 * n + 2];
                let top = self.room[a + 2 * n + depth as usize - 1];
                let s = top as usize;
                let k = self.room[a + 4 * n + s];
                tally.moves += 1;
                if let Some(next) = self.successor(p, s, k as usize) {
                    let x = next as usize;
                    self.room[a + 4 * n + s] = k + 1;
                    if self.room[a + x] != 1 && self.room[x] != 1 {
                        self.room[a + x] = 1;
                        self.room[a + 2 * n + depth as usize] = next;
                        self.room[a + 5 * n + 2] = depth + 1;
                        tally.outer += 1;
                    }
                } else if self.flags[s] == 1 {
                    self.room[a + n + s] = 1;
                    self.room[a + 3 * n] = top;
                    self.room[a + 4 * n + s] = 0;
                    self.room[a + 5 * n] = INNER;
                    self.room[a + 5 * n + 1] = top;
                    self.room[a + 5 * n + 3] = 1;
                    self.room[s] = 1;
                    tally.inner += 1;
                } else {
                    self.pop_outer(a, s);
                    self.room[s] = 1;
                }
            }
            INNER => {
                let depth = self.room[a + 5 * n + 3];
                let s = self.room[a + 3 * n + depth as usize - 1] as usize;
                let k = self.room[a + 4 * n + s];
                tally.moves += 1;
                if let Some(next) = self.successor(p, s, k as usize) {
                    let x = next as usize;
                    self.room[a + 4 * n + s] = k + 1;
                    if self.room[a + x] == 1 {
                        return Some(next);
                    }
                    if self.room[a + n + x] != 1 && self.room[n + x] != 1 {
                        self.room[a + n + x] = 1;
                        self.room[a + 3 * n + depth as usize] = next;
                        self.room[a + 5 * n + 3] = depth + 1;
                        tally.inner += 1;
                    }
                } else {
                    self.room[a + 3 * n + depth as usize - 1] = 0;
                    self.room[a + 4 * n + s] = 0;
                    self.room[a + 5 * n + 3] = depth - 1;
                    if depth == 1 {
                        self.room[a + 5 * n] = WAITING;
                    }
                }
            }
            WAITING => {
                let z = self.room[a + 5 * n + 1] as usize;
                let red = (0..n).all(|i| self.room[a + n + i] != 1 || self.flags[i] != 1 || i == z || self.room[n + i] == 1);
                if red {
                    for i in 0..n {
                        self.room[n + i] |= self.room[a + n + i];
                    }
                    self.room[a + n..a + 2 * n].fill(0);
                    self.pop_outer(a, z);
                    tally.moves += 1;
                } else {
                    tally.waits += 1;
                }
            }
            _ => {}
        }
        None
    }

    fn all_done(&self) -> bool {
        (0..self.workers).all(|q| self.room[self.stretch(q) + 5 * self.n] == DONE)
    }
}

/// The run to the end on words that are a graph, with rooms that are large enough; the tally of the run.
pub fn run_to_end(room: &mut [u16], lasso: &mut [u16], offsets: &[u16], targets: &[u16], flags: &[u16], workers: usize) -> Tally {
    let mut tally = Tally::default();
    let n = flags.len();
    assert!(is_graph(offsets, targets, flags));
    room[..room_size(n, workers)].fill(0);
    let mut run = Run { room, offsets, targets, flags, n, workers };
    loop {
        for p in 0..workers {
            if run.turn(&mut tally, p).is_some() {
                let a = run.stretch(p);
                let (outer, inner) = (run.room[a + 5 * n + 2] as usize, run.room[a + 5 * n + 3] as usize);
                lasso[..outer].copy_from_slice(&run.room[a + 2 * n..a + 2 * n + outer]);
                lasso[outer..outer + inner - 1].copy_from_slice(&run.room[a + 3 * n + 1..a + 3 * n + inner]);
                return tally;
            }
            if run.all_done() {
                return tally;
            }
        }
    }
}
