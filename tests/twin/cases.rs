// The cases: what is lent and given in one call, how it is printed, and the random ones.

use std::fmt;

use super::graphs::{self, Words};
use super::plain::{room_size, Tally};
use super::random::Random;
use super::texts::{self, List};

/// A reading: the text and what the lent lists hold beforehand.
pub struct Reading {
    pub text: Vec<u8>,
    pub offsets: Vec<u16>,
    pub targets: Vec<u16>,
    pub flags: Vec<u16>,
    pub places: Vec<u32>,
}

/// A run over a turn list or, if there is none, to the end; room, lasso room and tally are what they hold beforehand.
pub struct Run {
    pub turns: Option<Vec<u8>>,
    pub words: Words,
    pub workers: u64,
    pub room: Vec<u16>,
    pub lasso: Vec<u16>,
    pub tally: Tally,
}

pub enum Case {
    Graph(Words),
    Reading(Reading),
    Run(Run),
}

impl fmt::Display for Case {
    fn fmt(&self, f: &mut fmt::Formatter) -> fmt::Result {
        match self {
            Case::Graph(words) => write!(f, "graph check\n{words}"),
            Case::Reading(reading) => {
                writeln!(f, "reading\ntext ({} bytes) b\"{}\"", reading.text.len(), reading.text.escape_ascii())?;
                writeln!(f, "lent offsets ({}) {:?}", reading.offsets.len(), reading.offsets)?;
                writeln!(f, "lent targets ({}) {:?}", reading.targets.len(), reading.targets)?;
                writeln!(f, "lent flags ({}) {:?}", reading.flags.len(), reading.flags)?;
                writeln!(f, "lent places ({}) {:?}", reading.places.len(), reading.places)
            }
            Case::Run(run) => {
                match &run.turns {
                    Some(turns) => writeln!(f, "run\nturns ({}) {turns:?}", turns.len())?,
                    None => writeln!(f, "run to the end")?,
                }
                write!(f, "workers {}\n{}", run.workers, run.words)?;
                writeln!(f, "lent room ({}) {:?}", run.room.len(), run.room)?;
                writeln!(f, "lent lasso room ({}) {:?}\nlent tally {:?}", run.lasso.len(), run.lasso, run.tally)
            }
        }
    }
}

impl fmt::Display for Words {
    fn fmt(&self, f: &mut fmt::Formatter) -> fmt::Result {
        writeln!(f, "offsets ({}) {:?}", self.offsets.len(), self.offsets)?;
        writeln!(f, "targets ({}) {:?}", self.targets.len(), self.targets)?;
        writeln!(f, "flags ({}) {:?}", self.flags.len(), self.flags)
    }
}

pub fn random_case(random: &mut Random) -> Case {
    match random.below(100) {
        0..=7 => Case::Graph(random_words(random)),
        8..=47 => Case::Reading(random_reading(random)),
        _ => Case::Run(random_run(random)),
    }
}

// What is lent holds junk beforehand.

pub fn junk(random: &mut Random, length: usize) -> Vec<u16> {
    let mask = random.pick(&[0xFFFF, 0xFFFF, 1, 7]);
    (0..length).map(|_| random.bits() as u16 & mask).collect()
}

fn junk_places(random: &mut Random, length: usize) -> Vec<u32> {
    (0..length).map(|_| random.bits() as u32).collect()
}

pub fn junk_tally(random: &mut Random) -> Tally {
    let mut count = || if random.once_in(4) { u64::MAX } else { random.bits() };
    Tally { outer: count(), inner: count(), waits: count(), moves: count() }
}

// Graph checks.

fn random_words(random: &mut Random) -> Words {
    let mut words = match random.below(300) {
        0 => graphs::many_states(random.from_to(4_095, 4_097)),
        1 => graphs::many_transitions(random.from_to(16_383, 16_385)),
        _ => random_graph(random),
    };
    for _ in 0..random.pick(&[0, 1, 1, 1, 2]) {
        graphs::break_words(random, &mut words);
    }
    words
}

fn random_graph(random: &mut Random) -> Words {
    let (n, most) = graphs::random_size(random);
    graphs::random_graph(random, n, most)
}

// Readings.

fn random_reading(random: &mut Random) -> Reading {
    let (states, transitions) = match random.below(5_000) {
        0..=24 => return long_reading(random),
        25..=28 => (random.from_to(4_095, 4_097), random.from_to(16_383, 16_385)),
        29..=30 => (random.from_to(129, 400), random.from_to(16_383, 16_385)),
        31..=38 => (random.from_to(4_095, 4_097), random.below(100)),
        39..=80 => (random.from_to(40, 1_000), random.below(1_500)),
        81..=500 => (random.from_to(7, 40), random.below(100)),
        _ => (random.below(7), random.below(9)),
    };
    let list = List::random(random, states, transitions);
    let text = damaged(random, &list);
    reading(random, text, list.labels.len(), list.pairs.len())
}

/// The list's text, with some damage or none.
fn damaged(random: &mut Random, list: &List) -> Vec<u8> {
    let mut lines = list.lines();
    for _ in 0..random.pick(&[0, 0, 0, 1, 1, 1, 2, 2, 3]) {
        texts::damage_lines(random, &mut lines);
    }
    let mut text = texts::text(&lines);
    for _ in 0..random.pick(&[0, 0, 0, 0, 0, 0, 1, 1, 2]) {
        texts::damage_bytes(random, &mut text);
    }
    text
}

/// A text of exactly 1,048,576 bytes, or with some more.
fn long_reading(random: &mut Random) -> Reading {
    let list = List::random(random, 3, 4);
    let mut text = texts::text(&list.lines());
    if random.once_in(4) {
        text.clear();
    }
    let length = 1_048_576 + random.pick(&[0, 1, 1, 2, 1_000]);
    match random.below(4) {
        0 => text.resize(length, b'\n'),
        1 => text.resize(length, b'T'),
        2 => text.resize(length, random.bits() as u8),
        _ => text = b"S\tA\ta\n".iter().copied().cycle().take(length).collect(),
    }
    if random.once_in(2) {
        text[length - 1] = b'\n';
    }
    reading(random, text, 3, 4)
}

/// A reading with lists that hold enough for so many states and transitions, or too little.
fn reading(random: &mut Random, text: Vec<u8>, states: usize, transitions: usize) -> Reading {
    let mut lengths = [states + 1, transitions, states, 2 * states];
    match random.below(10) {
        // Longer than a 16-bit word can tell.
        0 if random.once_in(30) => lengths[random.below(4)] = 65_536 + random.below(3),
        0 | 1 => {}
        2 => {
            let short = random.below(4);
            lengths[short] = random.below(lengths[short]);
        }
        3 | 4 => {
            let short = random.below(4);
            lengths[short] = lengths[short].saturating_sub(random.from_to(1, 2));
        }
        5 => lengths.iter_mut().for_each(|length| *length = random.below(*length + 3)),
        6 => lengths.iter_mut().for_each(|length| *length += random.below(300)),
        _ => lengths.iter_mut().for_each(|length| *length += random.below(4)),
    }
    lent_reading(random, text, lengths)
}

/// A reading with lists of these lengths: offsets, targets, flags, places.
pub fn lent_reading(random: &mut Random, text: Vec<u8>, lengths: [usize; 4]) -> Reading {
    let [offsets, targets, flags, places] = lengths;
    Reading {
        text,
        offsets: junk(random, offsets),
        targets: junk(random, targets),
        flags: junk(random, flags),
        places: junk_places(random, places),
    }
}

// Runs.

const WRONG_WORKERS: [u64; 13] =
    [0, 9, 10, 255, 256, 257, 258, 65_537, 1 << 32, (1 << 32) + 1, (1 << 32) + 2, (1 << 63) + 1, u64::MAX];

fn random_run(random: &mut Random) -> Run {
    if random.once_in(3) {
        return waiting_run(random);
    }
    // Which of the refusals 9 to 13 the case is to be given a reason for: mostly none, else one or several.
    let faulty = random.once_in(4);
    let mut faults = [false; 5].map(|_| faulty && random.once_in(4));
    if faulty {
        faults[random.below(5)] = true;
    }
    let to_end = random.once_in(3);
    let workers = if faults[0] { random.pick(&WRONG_WORKERS) } else { random_workers(random, to_end) };
    let words = if faults[1] { random_words(random) } else { random_graph(random) };
    let p = if to_end && workers == 0 { 2 } else { workers.clamp(1, 8) as usize };
    let (needed, needed_lasso) = (room_size(words.flags.len(), p), 2 * words.flags.len());
    let room = room_length(random, needed, faults[2]);
    let lasso = room_length(random, needed_lasso, faults[3]);
    Run {
        turns: (!to_end).then(|| random_turns(random, p, &words, faults[4])),
        words,
        workers,
        room: junk(random, room),
        lasso: junk(random, lasso),
        tally: junk_tally(random),
    }
}

/// A run over a turn list in which workers stop for long between blue and red, so that others have to wait for them, or one to the end.
fn waiting_run(random: &mut Random) -> Run {
    let to_end = random.once_in(5);
    let n = if to_end { random.from_to(30, 50) } else { random.pick(&[2, 3, 4, 5, 6, 8, 12]) };
    let p = if to_end { random.from_to(6, 8) } else { random.pick(&[2, 2, 2, 3, 3, 4, 8]) };
    let words = if to_end { graphs::many_ways_graph(random, n) } else { graphs::waiting_graph(random, n) };
    Run {
        turns: (!to_end).then(|| waiting_turns(random, p, &words)),
        words,
        workers: p as u64,
        room: junk(random, room_size(n, p)),
        lasso: junk(random, 2 * n),
        tally: junk_tally(random),
    }
}

/// One worker gets some turns, another as many as it can use, then come bursts. One worker makes at most a P-th of all moves.
fn waiting_turns(random: &mut Random, workers: usize, words: &Words) -> Vec<u8> {
    let each = most_moves(words, 1);
    let (one, some) = (random.below(workers), random.below(each));
    let other = (one + random.from_to(1, workers - 1)) % workers;
    let mut turns = vec![one as u8; some];
    let many = if random.once_in(200) { 140_000 } else { each };
    turns.resize(some + random.from_to(many / 2, many), other as u8);
    let left = random.below(each * workers);
    turns.extend(bursts(random, workers, left, each / 2));
    turns
}

fn random_workers(random: &mut Random, to_end: bool) -> u64 {
    match random.below(10) {
        0 if to_end => 0,
        0 | 1 => 1,
        2..=5 => 2,
        6 | 7 => 3,
        8 => 8,
        _ => random.from_to(4, 8) as u64,
    }
}

fn room_length(random: &mut Random, needed: usize, short: bool) -> usize {
    match (short, random.below(5)) {
        (true, 0) => 0,
        (true, 1 | 2) => needed.saturating_sub(1),
        (true, 3) => random.below(needed),
        (true, _) => needed / 2,
        (false, 0) if random.once_in(50) => needed.max(65_536) + random.below(3),
        (false, 0 | 1) => needed,
        (false, 2) => needed + 1,
        (false, 3) => needed + random.below(20),
        (false, _) => needed + random.below(200),
    }
}

/// "P × (1 + 4N + 3E)".
pub fn most_moves(words: &Words, workers: usize) -> usize {
    workers * (1 + 4 * words.flags.len() + 3 * words.targets.len())
}

fn random_turns(random: &mut Random, workers: usize, words: &Words, wrong: bool) -> Vec<u8> {
    let enough = most_moves(words, workers);
    let length = match random.below(20) {
        0 => 0,
        1..=4 => random.below(12),
        5..=8 => random.below(40),
        // More than a 16-bit word can tell.
        9 if random.once_in(20) => 65_536 + random.below(1_000),
        9..=13 => random.below(enough),
        14..=16 => random.below(enough / 3),
        _ => enough + random.below(enough),
    };
    let mut turns = random_order(random, workers, length);
    if wrong {
        put_wrong_turns(random, workers, &mut turns);
    }
    turns
}

fn random_order(random: &mut Random, workers: usize, length: usize) -> Vec<u8> {
    let one = random.below(workers);
    match random.below(8) {
        0 | 1 => (0..length).map(|_| random.below(workers) as u8).collect(),
        2 => (0..length).map(|turn| (turn % workers) as u8).collect(),
        3 => vec![one as u8; length],
        4 | 5 => {
            let longest = random.pick(&[3, 8, 30, 100]);
            bursts(random, workers, length, longest)
        }
        // One worker hardly gets a turn, or gets none.
        6 => {
            let rarely = random.pick(&[10, 50, usize::MAX]);
            let other = |random: &mut Random| (one + 1 + random.below(workers.max(2) - 1)) % workers;
            (0..length).map(|_| if random.once_in(rarely) { one as u8 } else { other(random) as u8 }).collect()
        }
        // One worker after the other.
        _ => (0..length).map(|turn| ((one + turn * workers / length) % workers) as u8).collect(),
    }
}

/// Some turns of one worker, then some of another, and so on.
fn bursts(random: &mut Random, workers: usize, length: usize, longest: usize) -> Vec<u8> {
    let mut turns = Vec::with_capacity(length);
    while turns.len() < length {
        let worker = random.below(workers) as u8;
        let burst = random.from_to(1, longest);
        turns.resize((turns.len() + burst).min(length), worker);
    }
    turns
}

/// Puts turns that name worker P or above at some positions.
fn put_wrong_turns(random: &mut Random, workers: usize, turns: &mut Vec<u8>) {
    for _ in 0..random.from_to(1, 2) {
        let wrong = random.pick(&[workers as u8, workers as u8 + 1, 255, 128, 16]);
        let any = random.below(turns.len());
        let at = random.pick(&[0, turns.len(), any]);
        turns.insert(at, wrong);
    }
}
