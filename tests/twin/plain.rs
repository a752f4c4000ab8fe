// The plain implementation of 01: the reader of state-list text, the check of a graph's words, the run over a turn list and the run to the end.
// It is written from 01's text and, for the form of the working room, from the page on the room. The twin and the benchmarks use it.

use std::collections::{HashMap, HashSet};

const MOST_BYTES: usize = 1_048_576;
const MOST_STATES: usize = 4_096;
const MOST_TRANSITIONS: usize = 16_384;
const MOST_WORKERS: u64 = 8;

// The answers of a run.
pub const UNDECIDED: u32 = 0;
pub const CYCLE: u32 = 1;
pub const NONE: u32 = 2;

#[repr(C)]
#[derive(Clone, Copy, Debug, Default, PartialEq, Eq)]
pub struct ReadAnswer {
    pub refusal: u32,
    pub line: u32,
    pub states: u32,
    pub transitions: u32,
}

#[repr(C)]
#[derive(Clone, Copy, Debug, Default, PartialEq, Eq)]
pub struct RunAnswer {
    pub refusal: u32,
    pub answer: u32,
    pub stem: u32,
    pub loop_: u32,
    pub used: u64,
}

#[repr(C)]
#[derive(Clone, Copy, Debug, Default, PartialEq, Eq)]
pub struct Tally {
    pub outer: u64,
    pub inner: u64,
    pub waits: u64,
    pub moves: u64,
}

// The text.

/// A line in one of the two forms.
enum Record<'a> {
    State { label: &'a [u8], accepting: bool },
    Transition { from: &'a [u8], to: &'a [u8] },
}

/// "A label is 1 to 16 bytes of A–Z, a–z, 0–9, `-`, `_`, `.`".
fn is_label(field: &[u8]) -> bool {
    (1..=16).contains(&field.len()) && field.iter().all(|&b| b.is_ascii_alphanumeric() || matches!(b, b'-' | b'_' | b'.'))
}

/// `S→label→flag` or `T→label→label`, the line feed not included; None if the line has none of the two forms.
fn record(line: &[u8]) -> Option<Record<'_>> {
    let mut fields = line.split(|&b| b == b'\t');
    let (kind, label, last) = (fields.next()?, fields.next()?, fields.next()?);
    if fields.next().is_some() || !is_label(label) {
        return None;
    }
    match (kind, last) {
        (b"S", b"a") => Some(Record::State { label, accepting: true }),
        (b"S", b"-") => Some(Record::State { label, accepting: false }),
        (b"T", to) if is_label(to) => Some(Record::Transition { from: label, to }),
        _ => None,
    }
}

struct State {
    start: u32,
    length: u32,
    accepting: bool,
}

/// What the lines so far have declared, and how much the rooms hold.
struct StateList<'a> {
    states: Vec<State>,
    numbers: HashMap<&'a [u8], u16>,
    transitions: Vec<(u16, u16)>,
    pairs: HashSet<(u16, u16)>,
    most_states: usize,
    most_transitions: usize,
}

impl<'a> StateList<'a> {
    fn new(most_states: usize, most_transitions: usize) -> StateList<'a> {
        StateList {
            states: Vec::new(),
            numbers: HashMap::new(),
            transitions: Vec::new(),
            pairs: HashSet::new(),
            most_states,
            most_transitions,
        }
    }

    /// "within an S line 2, 3, 6, within a T line 2, 4, 5, 7".
    fn add_line(&mut self, start: usize, line: &'a [u8]) -> Result<(), u32> {
        let line = line.strip_suffix(b"\n").ok_or(2u32)?;
        match record(line) {
            Some(Record::State { label, accepting }) if self.transitions.is_empty() => self.add_state(start + 2, label, accepting),
            Some(Record::Transition { from, to }) => self.add_transition(from, to),
            _ => Err(2),
        }
    }

    fn add_state(&mut self, start: usize, label: &'a [u8], accepting: bool) -> Result<(), u32> {
        if self.numbers.contains_key(label) {
            return Err(3);
        }
        if self.states.len() == self.most_states {
            return Err(6);
        }
        self.numbers.insert(label, self.states.len() as u16);
        self.states.push(State { start: start as u32, length: label.len() as u32, accepting });
        Ok(())
    }

    fn add_transition(&mut self, from: &[u8], to: &[u8]) -> Result<(), u32> {
        let from = *self.numbers.get(from).ok_or(4u32)?;
        let to = *self.numbers.get(to).ok_or(4u32)?;
        if self.pairs.contains(&(from, to)) {
            return Err(5);
        }
        if self.transitions.len() == self.most_transitions {
            return Err(7);
        }
        self.pairs.insert((from, to));
        self.transitions.push((from, to));
        Ok(())
    }

    /// "The reader fills four lent lists". They are all 0 before. "The successors of a state come in the order of its T lines".
    fn write(&self, offsets: &mut [u16], targets: &mut [u16], flags: &mut [u16], places: &mut [u32]) {
        for (number, state) in self.states.iter().enumerate() {
            flags[number] = u16::from(state.accepting);
            places[2 * number] = state.start;
            places[2 * number + 1] = state.length;
        }
        for &(from, _) in &self.transitions {
            offsets[usize::from(from) + 1] += 1;
        }
        for number in 0..self.states.len() {
            offsets[number + 1] += offsets[number];
        }
        let mut next = offsets[..self.states.len()].to_vec();
        for &(from, to) in &self.transitions {
            let place = &mut next[usize::from(from)];
            targets[usize::from(*place)] = to;
            *place += 1;
        }
    }
}

/// Reads state-list text. "Unused words become 0. A refused reading sets all lent words to 0. The first refused line ends the reading."
pub fn read(offsets: &mut [u16], targets: &mut [u16], flags: &mut [u16], places: &mut [u32], text: &[u8]) -> ReadAnswer {
    offsets.fill(0);
    targets.fill(0);
    flags.fill(0);
    places.fill(0);
    if text.len() > MOST_BYTES {
        return ReadAnswer { refusal: 1, ..ReadAnswer::default() };
    }
    // "as many states as the least of 4,096, offset words less one (0 if there are none), flag words and half the place words rounded down;
    // and as many transitions as the lesser of 16,384 and target words".
    let most_states = MOST_STATES.min(offsets.len().saturating_sub(1)).min(flags.len()).min(places.len() / 2);
    let most_transitions = MOST_TRANSITIONS.min(targets.len());
    let mut list = StateList::new(most_states, most_transitions);
    let mut start = 0;
    for (before, line) in text.split_inclusive(|&b| b == b'\n').enumerate() {
        if let Err(refusal) = list.add_line(start, line) {
            return ReadAnswer { refusal, line: before as u32 + 1, ..ReadAnswer::default() };
        }
        start += line.len();
    }
    if list.states.is_empty() {
        return ReadAnswer { refusal: 8, ..ReadAnswer::default() };
    }
    list.write(offsets, targets, flags, places);
    ReadAnswer { refusal: 0, line: 0, states: list.states.len() as u32, transitions: list.transitions.len() as u32 }
}

// The words of a graph.

/// "Words are a graph if N, the length of the flags, is 1 to 4,096; E, the length of the targets, is at most 16,384; there are N+1 offsets, first 0,
/// last E, never falling; every target is below N; no state has the same target twice; every flag is 0 or 1."
pub fn is_graph(offsets: &[u16], targets: &[u16], flags: &[u16]) -> bool {
    let (n, e) = (flags.len(), targets.len());
    (1..=MOST_STATES).contains(&n)
        && e <= MOST_TRANSITIONS
        && offsets.len() == n + 1
        && offsets[0] == 0
        && usize::from(offsets[n]) == e
        && offsets.windows(2).all(|pair| pair[0] <= pair[1])
        && targets.iter().all(|&target| usize::from(target) < n)
        && no_target_twice(offsets, targets, n)
        && flags.iter().all(|&flag| flag <= 1)
}

/// "no state has the same target twice", for offsets that never fall and targets below N.
fn no_target_twice(offsets: &[u16], targets: &[u16], n: usize) -> bool {
    let mut last_source = vec![usize::MAX; n];
    for state in 0..n {
        for &target in &targets[usize::from(offsets[state])..usize::from(offsets[state + 1])] {
            if last_source[usize::from(target)] == state {
                return false;
            }
            last_source[usize::from(target)] = state;
        }
    }
    true
}

#[derive(Clone, Copy)]
struct Graph<'a> {
    offsets: &'a [u16],
    targets: &'a [u16],
    flags: &'a [u16],
}

impl<'a> Graph<'a> {
    fn states(&self) -> usize {
        self.flags.len()
    }

    fn successors(&self, state: u16) -> &'a [u16] {
        let state = usize::from(state);
        &self.targets[usize::from(self.offsets[state])..usize::from(self.offsets[state + 1])]
    }

    fn accepting(&self, state: u16) -> bool {
        self.flags[usize::from(state)] == 1
    }
}

// The moves.

/// "A worker's place is one value: not started, outer search, inner search with its seed, waiting with its seed, or done."
#[derive(Clone, Copy, PartialEq, Eq)]
enum Place {
    NotStarted,
    Outer,
    Inner(u16),
    Waiting(u16),
    Done,
}

/// What a move did.
enum Event {
    Changed,
    Wait,
    Nothing,
    Cycle(u16),
}

/// "blue and red are shared".
struct Colours {
    blue: Vec<bool>,
    red: Vec<bool>,
}

/// The set R: which states are in it, and these in the order in which they joined.
struct Reached {
    holds: Vec<bool>,
    states: Vec<u16>,
}

impl Reached {
    fn join(&mut self, state: u16) {
        self.holds[usize::from(state)] = true;
        self.states.push(state);
    }

    fn empty(&mut self) {
        for state in self.states.drain(..) {
            self.holds[usize::from(state)] = false;
        }
    }
}

/// "cyan and the set R are each worker's own".
struct Worker {
    number: usize,
    place: Place,
    cyan: Vec<bool>,
    r: Reached,
    outer: Vec<u16>,
    inner: Vec<u16>,
    taken: Vec<u16>,
}

impl Worker {
    fn new(number: usize, states: usize) -> Worker {
        Worker {
            number,
            place: Place::NotStarted,
            cyan: vec![false; states],
            r: Reached { holds: vec![false; states], states: Vec::new() },
            outer: Vec::new(),
            inner: Vec::new(),
            taken: vec![0; states],
        }
    }

    /// "A turn makes one move".
    fn make_move(&mut self, graph: Graph, colours: &mut Colours, tally: &mut Tally) -> Event {
        match self.place {
            Place::NotStarted => self.start(tally),
            Place::Outer => self.search_outer(graph, colours, tally),
            Place::Inner(seed) => self.search_inner(graph, colours, tally, seed),
            Place::Waiting(seed) => self.wait(graph, colours, seed),
            Place::Done => Event::Nothing,
        }
    }

    /// 1: "Not started: the initial state becomes cyan and the outer stack's only entry, blue or not."
    fn start(&mut self, tally: &mut Tally) -> Event {
        self.enter_outer(0, tally);
        self.place = Place::Outer;
        Event::Changed
    }

    fn enter_outer(&mut self, state: u16, tally: &mut Tally) {
        self.cyan[usize::from(state)] = true;
        self.outer.push(state);
        tally.outer += 1;
    }

    fn enter_inner(&mut self, state: u16, tally: &mut Tally) {
        self.r.join(state);
        self.inner.push(state);
        tally.inner += 1;
    }

    /// The next successor, if one is left: "Worker p looks at the successors of a state with d successors starting at number p mod d and going round
    /// once, in both searches."
    fn take(&mut self, graph: Graph, state: u16) -> Option<u16> {
        let successors = graph.successors(state);
        let taken = &mut self.taken[usize::from(state)];
        if usize::from(*taken) == successors.len() {
            return None;
        }
        let successor = successors[(self.number + usize::from(*taken)) % successors.len()];
        *taken += 1;
        Some(successor)
    }

    fn search_outer(&mut self, graph: Graph, colours: &mut Colours, tally: &mut Tally) -> Event {
        let Some(&top) = self.outer.last() else { return Event::Nothing };
        match self.take(graph, top) {
            // 2: "take it. If it is neither cyan for p nor blue, it becomes cyan and goes on the stack."
            Some(successor) => {
                if !self.cyan[usize::from(successor)] && !colours.blue[usize::from(successor)] {
                    self.enter_outer(successor, tally);
                }
            }
            // 3: "the top becomes blue. If not accepting, it loses cyan and leaves the stack; an empty stack means done. If accepting, it becomes the
            // seed, R holds only it, and it starts the inner stack, red or not."
            None => {
                colours.blue[usize::from(top)] = true;
                if graph.accepting(top) {
                    self.taken[usize::from(top)] = 0;
                    self.r.empty();
                    self.enter_inner(top, tally);
                    self.place = Place::Inner(top);
                } else {
                    self.leave_outer(top);
                }
            }
        }
        Event::Changed
    }

    /// The top of the outer stack loses cyan and leaves; "an empty stack means done".
    fn leave_outer(&mut self, top: u16) {
        self.cyan[usize::from(top)] = false;
        self.taken[usize::from(top)] = 0;
        self.outer.pop();
        self.place = if self.outer.is_empty() { Place::Done } else { Place::Outer };
    }

    fn search_inner(&mut self, graph: Graph, colours: &Colours, tally: &mut Tally, seed: u16) -> Event {
        let Some(&top) = self.inner.last() else { return Event::Nothing };
        match self.take(graph, top) {
            // 4: "take it. If cyan for p, the answer is "cycle". Else, if neither in R nor red, it joins R and the inner stack."
            Some(successor) => {
                if self.cyan[usize::from(successor)] {
                    return Event::Cycle(successor);
                }
                if !self.r.holds[usize::from(successor)] && !colours.red[usize::from(successor)] {
                    self.enter_inner(successor, tally);
                }
            }
            // 5: "the top leaves; an empty inner stack means waiting."
            None => {
                self.taken[usize::from(top)] = 0;
                self.inner.pop();
                if self.inner.is_empty() {
                    self.place = Place::Waiting(seed);
                }
            }
        }
        Event::Changed
    }

    /// 6: "if every accepting state of R other than the seed is red, all of R becomes red at once, R is emptied, the seed loses cyan and leaves the
    /// outer stack; an empty stack means done. Otherwise nothing changes (a wait)."
    fn wait(&mut self, graph: Graph, colours: &mut Colours, seed: u16) -> Event {
        let red = &mut colours.red;
        if !self.r.states.iter().all(|&state| state == seed || !graph.accepting(state) || red[usize::from(state)]) {
            return Event::Wait;
        }
        for &state in &self.r.states {
            red[usize::from(state)] = true;
        }
        self.r.empty();
        self.leave_outer(seed);
        Event::Changed
    }

    /// "For "cycle" on taking state c: the stem is the outer stack below c; the loop is the outer stack from c up to the seed, then the inner stack
    /// above the seed. [..] Stem and then loop go to the front of the lasso room, their lengths into the result".
    fn write_lasso(&self, lasso: &mut [u16], c: u16) -> (u32, u32) {
        let stem = self.outer.iter().position(|&state| state == c).unwrap_or(0);
        let above_seed = &self.inner[1..];
        let length = self.outer.len() + above_seed.len();
        lasso[..self.outer.len()].copy_from_slice(&self.outer);
        lasso[self.outer.len()..length].copy_from_slice(above_seed);
        (stem as u32, (length - stem) as u32)
    }

    /// The worker's stretch of the working room: cyan, R, outer stack, inner stack, taken successors, place, seed, the two depths.
    fn write_stretch(&self, stretch: &mut [u16]) {
        let n = self.cyan.len();
        write_set(&mut stretch[..n], &self.cyan);
        write_set(&mut stretch[n..2 * n], &self.r.holds);
        write_stack(&mut stretch[2 * n..3 * n], &self.outer);
        write_stack(&mut stretch[3 * n..4 * n], &self.inner);
        stretch[4 * n..5 * n].copy_from_slice(&self.taken);
        let (place, seed) = match self.place {
            Place::NotStarted => (0, 0),
            Place::Outer => (1, 0),
            Place::Inner(seed) => (2, seed),
            Place::Waiting(seed) => (3, seed),
            Place::Done => (4, 0),
        };
        stretch[5 * n..].copy_from_slice(&[place, seed, self.outer.len() as u16, self.inner.len() as u16]);
    }
}

fn write_set(words: &mut [u16], set: &[bool]) {
    for (word, &held) in words.iter_mut().zip(set) {
        *word = u16::from(held);
    }
}

fn write_stack(words: &mut [u16], stack: &[u16]) {
    let (held, above) = words.split_at_mut(stack.len());
    held.copy_from_slice(stack);
    above.fill(0);
}

/// "Room 11 is 2N + P × (5N + 4) 16-bit words".
pub fn room_size(states: usize, workers: usize) -> usize {
    2 * states + workers * (5 * states + 4)
}

struct Machine<'a> {
    graph: Graph<'a>,
    colours: Colours,
    workers: Vec<Worker>,
}

impl<'a> Machine<'a> {
    /// "All start empty."
    fn new(graph: Graph<'a>, workers: usize) -> Machine<'a> {
        let states = graph.states();
        Machine {
            graph,
            colours: Colours { blue: vec![false; states], red: vec![false; states] },
            workers: (0..workers).map(|number| Worker::new(number, states)).collect(),
        }
    }

    /// "Turns after an answer are not run; the result tells how many were used. A list that ends first, also the empty one, gives "undecided"."
    fn search(&mut self, lasso: &mut [u16], tally: &mut Tally, turns: impl Iterator<Item = usize>) -> RunAnswer {
        // "It is set to 0 at the start."
        *tally = Tally::default();
        let mut used = 0;
        for turn in turns {
            used += 1;
            let worker = &mut self.workers[turn];
            match worker.make_move(self.graph, &mut self.colours, tally) {
                Event::Changed => tally.moves += 1,
                Event::Wait => tally.waits += 1,
                Event::Nothing => {}
                // "taking a successor always changes something, the take that answers "cycle" included".
                Event::Cycle(c) => {
                    tally.moves += 1;
                    let (stem, loop_) = worker.write_lasso(lasso, c);
                    return RunAnswer { refusal: 0, answer: CYCLE, stem, loop_, used };
                }
            }
            // ""None" is the answer as soon as every worker is done."
            if worker.place == Place::Done && self.workers.iter().all(|worker| worker.place == Place::Done) {
                return RunAnswer { answer: NONE, used, ..RunAnswer::default() };
            }
        }
        RunAnswer { answer: UNDECIDED, used, ..RunAnswer::default() }
    }

    /// "The working room holds the machine's state after the last move made". "Words beyond the needed ones are unchanged."
    fn write_room(&self, room: &mut [u16]) {
        let n = self.graph.states();
        let (colours, stretches) = room.split_at_mut(2 * n);
        write_set(&mut colours[..n], &self.colours.blue);
        write_set(&mut colours[n..], &self.colours.red);
        for (worker, stretch) in self.workers.iter().zip(stretches.chunks_exact_mut(5 * n + 4)) {
            worker.write_stretch(stretch);
        }
    }
}

/// The number of the refusal, 0 if there is none: "A run checks 9, 10, 11, 12, 13 in that order, before its first move". "Every turn of the list is
/// checked for 13, also those after an answer."
fn refusal(room: &[u16], lasso: &[u16], turns: &[u8], graph: Graph, workers: u64) -> u32 {
    if !(1..=MOST_WORKERS).contains(&workers) {
        9
    } else if !is_graph(graph.offsets, graph.targets, graph.flags) {
        10
    } else if room.len() < room_size(graph.states(), workers as usize) {
        11
    } else if lasso.len() < 2 * graph.states() {
        12
    } else if turns.iter().any(|&turn| u64::from(turn) >= workers) {
        13
    } else {
        0
    }
}

/// A run that is not refused.
fn from_the_start(
    room: &mut [u16],
    lasso: &mut [u16],
    tally: &mut Tally,
    graph: Graph,
    workers: usize,
    turns: impl Iterator<Item = usize>,
) -> RunAnswer {
    let mut machine = Machine::new(graph, workers);
    let answer = machine.search(lasso, tally, turns);
    machine.write_room(room);
    answer
}

/// The run over a given turn list. "a refused run changes no lent word and no tally."
pub fn run(
    room: &mut [u16],
    lasso: &mut [u16],
    tally: &mut Tally,
    turns: &[u8],
    offsets: &[u16],
    targets: &[u16],
    flags: &[u16],
    workers: u64,
) -> RunAnswer {
    let graph = Graph { offsets, targets, flags };
    match refusal(room, lasso, turns, graph, workers) {
        0 => from_the_start(room, lasso, tally, graph, workers as usize, turns.iter().map(|&turn| usize::from(turn))),
        refusal => RunAnswer { refusal, ..RunAnswer::default() },
    }
}

/// The run to the end "with turns 0, 1, .., P−1 repeated". It "takes worker count 0 too: it means the house's usual, two; it can't give 13."
pub fn run_to_end(
    room: &mut [u16],
    lasso: &mut [u16],
    tally: &mut Tally,
    offsets: &[u16],
    targets: &[u16],
    flags: &[u16],
    workers: u64,
) -> RunAnswer {
    let workers = if workers == 0 { 2 } else { workers };
    let graph = Graph { offsets, targets, flags };
    match refusal(room, lasso, &[], graph, workers) {
        0 => from_the_start(room, lasso, tally, graph, workers as usize, (0..workers as usize).cycle()),
        refusal => RunAnswer { refusal, ..RunAnswer::default() },
    }
}
