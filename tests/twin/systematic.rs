// The systematic cases: all of some small kinds, in an order that mixes the kinds.

use std::collections::HashSet;

use super::cases::{junk, junk_tally, lent_reading, most_moves, Case, Run};
use super::graphs::{all_graphs, Words};
use super::plain::{self, room_size, Tally};
use super::random::Random;
use super::texts;

const TEXT: &[u8] = b"S\tA\ta\nS\tb.9\t-\nT\tb.9\tA\n";

const LINES: [&[u8]; 10] =
    [b"S\ta\t-", b"S\ta\ta", b"S\tb\t-", b"T\ta\tb", b"T\tb\ta", b"T\ta\ta", b"T\tc\ta", b"T\ta\tc", b"", b"S\tc\tx"];
const MOST_LINES: usize = 4;

// Small texts to be read into lists of all small lengths, with their numbers of states and transitions.
const SMALL_TEXTS: [(&[u8], usize, usize); 8] = [
    (b"", 0, 0),
    (b"S\tA\t-\n", 1, 0),
    (b"S\tA\ta\nT\tA\tA\n", 1, 1),
    (b"S\tA\ta\nS\tB\t-\n", 2, 0),
    (b"S\tA\ta\nS\tB\t-\nT\tB\tA\nT\tA\tA\n", 2, 2),
    (b"S\tA\ta\nS\tB\t-\nS\tA\ta\nT\tA\tA\n", 2, 1),
    (b"S\tA\ta\nS\tB\t-\nT\tB\tA\nT\tB\tA\n", 2, 1),
    (b"S\tA\ta\nS\tB\t-\nS\tC\ta\nT\tC\tC\nT\tA\tB\nT\tB\tC\nT\tA\tA\n", 3, 4),
];

const MOST_TURNS: usize = 7;
const MOST_WORKERS_TRIED: usize = 300;

/// A turn list for a graph of `few` and so many workers.
struct TurnList {
    graph: usize,
    workers: usize,
    turns: Vec<u8>,
}

/// A part: how many cases it has, and the case of a number below that.
type Part = (usize, fn(&Systematic, usize) -> Case);

pub struct Systematic {
    few: Vec<Words>,
    three: Vec<Words>,
    lists: Vec<Vec<u16>>,
    turn_lists: Vec<TurnList>,
    parts: Vec<Part>,
    count: usize,
}

impl Systematic {
    pub fn new() -> Systematic {
        let few: Vec<Words> = all_graphs(1).into_iter().chain(all_graphs(2)).collect();
        let turn_lists = all_turn_lists(&few).into_iter().chain(every_turn(&few)).collect();
        let lists = all_lists(3, 3);
        let mut all = Systematic { few, three: all_graphs(3), lists, turn_lists, parts: Vec::new(), count: 0 };
        let triples = all.lists.len().pow(3);
        all.parts = vec![
            (TEXT.len() * 256, Systematic::changed_byte),
            ((TEXT.len() + 1) * 256, Systematic::added_byte),
            (TEXT.len(), Systematic::removed_byte),
            (TEXT.len() + 1, Systematic::cut_text),
            (4 * line_lists(), Systematic::lines),
            (SMALL_TEXTS.iter().map(|&(_, n, e)| lengths_count(n, e)).sum(), Systematic::lengths),
            (triples, Systematic::triple_check),
            (triples, Systematic::triple_run),
            (all.turn_lists.len(), Systematic::turn_list),
            (all.few.len() * 9, Systematic::few_to_end),
            (2 * all.three.len(), Systematic::three_to_end),
            (9 * 256 * 6, Systematic::every_turn_value),
            (2 * 40 * 8, Systematic::room_lengths),
            (2 * MOST_WORKERS_TRIED, Systematic::worker_counts),
        ];
        all.count = all.parts.iter().map(|&(count, _)| count).sum();
        all
    }

    pub fn count(&self) -> u64 {
        self.count as u64
    }

    /// Each number below the count gives another case. The step is a prime that does not divide the count.
    pub fn case(&self, seed: u64, number: u64) -> Case {
        let step = 1_000_000_007 % self.count();
        let mut index = ((number * step + seed % self.count()) % self.count()) as usize;
        for &(count, case) in &self.parts {
            if index < count {
                return case(self, index);
            }
            index -= count;
        }
        unreachable!("the parts have so many cases")
    }

    // Texts.

    fn changed_byte(&self, index: usize) -> Case {
        let mut text = TEXT.to_vec();
        text[index / 256] = (index % 256) as u8;
        roomy_reading(index, text)
    }

    fn added_byte(&self, index: usize) -> Case {
        let mut text = TEXT.to_vec();
        text.insert(index / 256, (index % 256) as u8);
        roomy_reading(index, text)
    }

    fn removed_byte(&self, index: usize) -> Case {
        let mut text = TEXT.to_vec();
        text.remove(index);
        roomy_reading(index, text)
    }

    fn cut_text(&self, index: usize) -> Case {
        roomy_reading(index, TEXT[..index].to_vec())
    }

    /// All lists of up to four of the lines, with and without the last line feed, with rooms for enough and for one state and one transition.
    fn lines(&self, index: usize) -> Case {
        let (choice, list) = (index % 4, list_of(LINES.len(), index / 4));
        let lines: Vec<Vec<u8>> = list.iter().map(|&line| LINES[line].to_vec()).collect();
        let mut text = texts::text(&lines);
        if choice % 2 == 1 {
            text.pop();
        }
        let lengths = if choice < 2 { [5, 4, 4, 8] } else { [2, 1, 1, 2] };
        Case::Reading(lent_reading(&mut Random::new(0, index as u64), text, lengths))
    }

    fn lengths(&self, index: usize) -> Case {
        let mut left = index;
        let mut text = SMALL_TEXTS.iter();
        loop {
            let &(text, n, e) = text.next().expect("the texts have so many cases");
            if left < lengths_count(n, e) {
                let offsets = left % (n + 4);
                let targets = left / (n + 4) % (e + 3);
                let flags = left / (n + 4) / (e + 3) % (n + 3);
                let places = left / (n + 4) / (e + 3) / (n + 3);
                let lengths = [offsets, targets, flags, places];
                return Case::Reading(lent_reading(&mut Random::new(0, index as u64), text.to_vec(), lengths));
            }
            left -= lengths_count(n, e);
        }
    }

    // Words.

    fn triple(&self, index: usize) -> Words {
        let count = self.lists.len();
        Words {
            offsets: self.lists[index % count].clone(),
            targets: self.lists[index / count % count].clone(),
            flags: self.lists[index / count / count].clone(),
        }
    }

    fn triple_check(&self, index: usize) -> Case {
        Case::Graph(self.triple(index))
    }

    fn triple_run(&self, index: usize) -> Case {
        lent_run(index, None, self.triple(index), 1)
    }

    // Runs.

    fn turn_list(&self, index: usize) -> Case {
        let list = &self.turn_lists[index];
        lent_run(index, Some(list.turns.clone()), self.few[list.graph].clone(), list.workers as u64)
    }

    fn few_to_end(&self, index: usize) -> Case {
        lent_run(index, None, self.few[index / 9].clone(), (index % 9) as u64)
    }

    fn three_to_end(&self, index: usize) -> Case {
        lent_run(index, None, self.three[index / 2].clone(), 2 + index as u64 % 2)
    }

    /// A turn of any value at each of six positions, for 1 to 9 workers. Worker 0 finds the loop with its fourth turn, so the last turns are not run.
    fn every_turn_value(&self, index: usize) -> Case {
        let (value, at, workers) = (index % 256, index / 256 % 6, index / 256 / 6 + 1);
        let mut turns = vec![0; 6];
        turns[at] = value as u8;
        lent_run(index, Some(turns), Words::new(&[vec![0]], &[1]), workers as u64)
    }

    /// Rooms and lasso rooms of all small lengths, for one state and one worker and for two of each.
    fn room_lengths(&self, index: usize) -> Case {
        let (room, lasso, two) = (index % 40, index / 40 % 8, index / 40 / 8);
        let words = if two == 1 { Words::new(&[vec![1], vec![1]], &[0, 1]) } else { Words::new(&[vec![0]], &[1]) };
        let turns = (index % 3 > 0).then(|| vec![0; 5]);
        let Case::Run(mut run) = lent_run(index, turns, words, 1 + two as u64) else { unreachable!("it is a run") };
        let mut random = Random::new(1, index as u64);
        run.room = junk(&mut random, room);
        run.lasso = junk(&mut random, lasso);
        Case::Run(run)
    }

    fn worker_counts(&self, index: usize) -> Case {
        let turns = (index % 2 == 0).then(|| vec![0; 3]);
        lent_run(index, turns, Words::new(&[vec![1], vec![1]], &[0, 1]), index as u64 / 2)
    }
}

fn roomy_reading(index: usize, text: Vec<u8>) -> Case {
    Case::Reading(lent_reading(&mut Random::new(0, index as u64), text, [5, 3, 4, 9]))
}

/// How many combinations of lengths are tried for a text of n states and e transitions: offsets to N+3, targets to E+2, flags to N+2, places to 2N+3.
fn lengths_count(n: usize, e: usize) -> usize {
    (n + 4) * (e + 3) * (n + 3) * (2 * n + 4)
}

/// A run with rooms that are long enough, junk in them.
fn lent_run(index: usize, turns: Option<Vec<u8>>, words: Words, workers: u64) -> Case {
    let mut random = Random::new(0, index as u64);
    let p = if turns.is_none() && workers == 0 { 2 } else { workers.min(8) as usize };
    let room = room_size(words.flags.len(), p) + random.below(2);
    let lasso = 2 * words.flags.len() + random.below(2);
    Case::Run(Run { turns, words, workers, room: junk(&mut random, room), lasso: junk(&mut random, lasso), tally: junk_tally(&mut random) })
}

// Enumerations.

/// How many lists of up to MOST_LINES lines there are.
fn line_lists() -> usize {
    (0..=MOST_LINES as u32).map(|length| LINES.len().pow(length)).sum()
}

/// The list of this number, of words below the base, where all shorter lists come first.
fn list_of(base: usize, number: usize) -> Vec<usize> {
    let (mut length, mut left) = (0, number);
    while left >= base.pow(length) {
        left -= base.pow(length);
        length += 1;
    }
    (0..length).map(|place| left / base.pow(place) % base).collect()
}

/// All lists of up to `longest` words below the base.
fn all_lists(base: usize, longest: u32) -> Vec<Vec<u16>> {
    let count = (0..=longest).map(|length| base.pow(length)).sum();
    (0..count).map(|number| list_of(base, number).into_iter().map(|word| word as u16).collect()).collect()
}

/// For each graph all turn lists of one worker until after the end, and all turn lists of two workers up to MOST_TURNS.
fn all_turn_lists(few: &[Words]) -> Vec<TurnList> {
    let mut all = Vec::new();
    for (graph, words) in few.iter().enumerate() {
        for length in 0..most_moves(words, 1) + 2 {
            all.push(TurnList { graph, workers: 1, turns: vec![0; length] });
        }
        for number in 0..(1 << (MOST_TURNS + 1)) - 1 {
            let turns = list_of(2, number).into_iter().map(|turn| turn as u8).collect();
            all.push(TurnList { graph, workers: 2, turns });
        }
    }
    all
}

/// For each graph and two workers, and for the graphs of one state and three: a turn list for every turn from every state of the machine that turns
/// can lead to.
fn every_turn(few: &[Words]) -> Vec<TurnList> {
    let mut all = Vec::new();
    for (graph, words) in few.iter().enumerate() {
        for workers in 2..=if words.flags.len() == 1 { 3 } else { 2 } {
            let mut seen = HashSet::new();
            let mut left: Vec<Vec<u8>> = vec![Vec::new()];
            while let Some(before) = left.pop() {
                for turn in 0..workers as u8 {
                    let mut turns = before.clone();
                    turns.push(turn);
                    if seen.insert(room_after(words, workers, &turns)) {
                        left.push(turns.clone());
                    }
                    all.push(TurnList { graph, workers, turns });
                }
            }
        }
    }
    all
}

/// The room after the turns, and whether the answer came before the last of them.
fn room_after(words: &Words, workers: usize, turns: &[u8]) -> (Vec<u16>, bool) {
    let mut room = vec![0; room_size(words.flags.len(), workers)];
    let mut lasso = vec![0; 2 * words.flags.len()];
    let answer =
        plain::run(&mut room, &mut lasso, &mut Tally::default(), turns, &words.offsets, &words.targets, &words.flags, workers as u64);
    (room, answer.used < turns.len() as u64)
}
