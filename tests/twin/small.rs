// 01's small graphs and texts with their stated answers. Both the plain implementation and ours are held to them.

use super::graphs::{many_states, Words};
use super::plain::{room_size, ReadAnswer, RunAnswer, Tally, CYCLE, NONE, UNDECIDED};
use super::{ours, plain, texts};

/// One of the two implementations.
pub struct Side {
    pub name: &'static str,
    is_graph: fn(&[u16], &[u16], &[u16]) -> bool,
    read: fn(&mut [u16], &mut [u16], &mut [u16], &mut [u32], &[u8]) -> ReadAnswer,
    run: fn(&mut [u16], &mut [u16], &mut Tally, &[u8], &[u16], &[u16], &[u16], u64) -> RunAnswer,
    run_to_end: fn(&mut [u16], &mut [u16], &mut Tally, &[u16], &[u16], &[u16], u64) -> RunAnswer,
}

pub const PLAIN: Side = Side { name: "plain", is_graph: plain::is_graph, read: plain::read, run: plain::run, run_to_end: plain::run_to_end };
pub const OURS: Side = Side { name: "ours", is_graph: ours::is_graph, read: ours::read, run: ours::run, run_to_end: ours::run_to_end };

const TEXT_0417: &[u8] = b"S\t0417\t-\nS\t417\ta\nT\t0417\t417\nT\t417\t417\n";

/// A stated run: the graph, the turns, the answer, the turns used, the moves and the waits.
struct Row {
    name: &'static str,
    flags: &'static [u16],
    successors: &'static [&'static [u16]],
    workers: u64,
    turns: &'static [u8],
    answer: u32,
    used: u64,
    moves: u64,
    waits: u64,
    stem: &'static [u16],
    loop_: &'static [u16],
}

const NO_LASSO: Row =
    Row { name: "", flags: &[], successors: &[], workers: 1, turns: &[], answer: NONE, used: 0, moves: 0, waits: 0, stem: &[], loop_: &[] };

const OF_0417: Row = Row { flags: &[0, 1], successors: &[&[1], &[1]], workers: 2, ..NO_LASSO };
const OF_I: Row = Row { flags: &[1, 1], successors: &[&[1], &[]], workers: 2, ..NO_LASSO };

// Where 01 names no turns there are some more than the answer takes.
const ROWS: [Row; 13] = [
    Row { name: "a", flags: &[0], successors: &[&[]], turns: &[0, 0], used: 2, moves: 2, ..NO_LASSO },
    Row { name: "b", flags: &[1], successors: &[&[]], turns: &[0; 6], used: 4, moves: 4, ..NO_LASSO },
    Row { name: "c", flags: &[1], successors: &[&[0]], turns: &[0; 6], answer: CYCLE, used: 4, moves: 4, loop_: &[0], ..NO_LASSO },
    Row { name: "d", flags: &[0], successors: &[&[0]], turns: &[0; 6], used: 3, moves: 3, ..NO_LASSO },
    Row { name: "e", turns: &[0, 1, 0, 1, 0, 1, 0, 1, 0], answer: CYCLE, used: 9, moves: 9, stem: &[0], loop_: &[1], ..OF_0417 },
    Row { name: "f, first list", turns: &[1, 1, 1, 1, 0, 0, 0], answer: UNDECIDED, used: 7, moves: 7, ..OF_0417 },
    Row { name: "f, second list", turns: &[1, 1, 1, 1, 0, 0, 0, 1], answer: CYCLE, used: 8, moves: 8, stem: &[0], loop_: &[1], ..OF_0417 },
    Row { name: "g", flags: &[0, 1], successors: &[&[], &[1]], turns: &[0; 6], used: 2, moves: 2, ..NO_LASSO },
    Row { name: "h", flags: &[1, 0], successors: &[&[1], &[1]], turns: &[0; 12], used: 10, moves: 10, ..NO_LASSO },
    Row { name: "i, before the wait", turns: &[1, 1, 1, 0, 0, 0, 0, 0, 0], answer: UNDECIDED, used: 9, moves: 9, ..OF_I },
    Row { name: "i", turns: &[1, 1, 1, 0, 0, 0, 0, 0, 0, 0], answer: UNDECIDED, used: 10, moves: 9, waits: 1, ..OF_I },
    Row { name: "j", turns: &[1, 1, 1, 0, 0, 0, 0, 0, 0, 0, 1, 1, 0, 1, 1, 1, 1], used: 17, moves: 16, waits: 1, ..OF_I },
    // "A list that ends first, also the empty one, gives "undecided"."
    Row { name: "a, no turns", flags: &[0], successors: &[&[]], answer: UNDECIDED, ..NO_LASSO },
];

/// The working room after the first list of f), from the page on the room.
const ROOM_F: [u16; 32] =
    [1, 1, 0, 0, 0, 0, 0, 0, 0, 0, 0, 0, 0, 0, 4, 0, 0, 0, 1, 1, 0, 1, 0, 1, 1, 0, 1, 0, 2, 1, 2, 1];

/// Holds one side to all of 01's small graphs; tells what it does not meet.
pub fn hold(side: &Side) -> Result<(), String> {
    for row in &ROWS {
        hold_row(side, row).map_err(|fault| format!("{}, small graph {}: {fault}", side.name, row.name))?;
    }
    hold_texts(side).map_err(|fault| format!("{}, {fault}", side.name))?;
    hold_largest_texts(side).map_err(|fault| format!("{}, {fault}", side.name))?;
    hold_program_example(side).map_err(|fault| format!("{}, the program's example: {fault}", side.name))?;
    hold_limits(side).map_err(|fault| format!("{}, {fault}", side.name))
}

fn expect<T: PartialEq + std::fmt::Debug>(what: &str, stated: T, given: T) -> Result<(), String> {
    if stated == given {
        Ok(())
    } else {
        Err(format!("{what}: stated {stated:?}, given {given:?}"))
    }
}

fn hold_row(side: &Side, row: &Row) -> Result<(), String> {
    let successors: Vec<Vec<u16>> = row.successors.iter().map(|targets| targets.to_vec()).collect();
    let words = Words::new(&successors, row.flags);
    let mut room = vec![9; room_size(row.flags.len(), row.workers as usize)];
    let mut lasso = vec![9; 2 * row.flags.len()];
    let mut tally = Tally { outer: 9, inner: 9, waits: 9, moves: 9 };
    expect("is a graph", true, (side.is_graph)(&words.offsets, &words.targets, &words.flags))?;
    let answer = (side.run)(&mut room, &mut lasso, &mut tally, row.turns, &words.offsets, &words.targets, &words.flags, row.workers);
    let (stem, loop_) = (row.stem.len() as u32, row.loop_.len() as u32);
    expect("result", RunAnswer { refusal: 0, answer: row.answer, stem, loop_, used: row.used }, answer)?;
    expect("moves and waits", (row.moves, row.waits), (tally.moves, tally.waits))?;
    let path = [row.stem, row.loop_].concat();
    expect("stem and loop", &path[..], &lasso[..path.len()])?;
    expect("the rest of the lasso room", true, lasso[path.len()..].iter().all(|&word| word == 9))?;
    if row.name == "f, first list" {
        expect("room", &ROOM_F[..], &room[..])?;
    }
    Ok(())
}

fn read(side: &Side, text: &[u8]) -> (ReadAnswer, [Vec<u16>; 3], Vec<u32>) {
    let (mut offsets, mut targets, mut flags, mut places) = (vec![9; 4], vec![9; 3], vec![9; 3], vec![9; 6]);
    let answer = (side.read)(&mut offsets, &mut targets, &mut flags, &mut places, text);
    (answer, [offsets, targets, flags], places)
}

fn hold_texts(side: &Side) -> Result<(), String> {
    let refused = |refusal, line| ReadAnswer { refusal, line, states: 0, transitions: 0 };
    let good = |states, transitions| ReadAnswer { refusal: 0, line: 0, states, transitions };
    let stated: [(&[u8], ReadAnswer); 9] = [
        (b"S\t7\ta\nS\t07\t-\n", good(2, 0)),
        (b"S\t7\ta\nS\t7\ta\n", refused(3, 2)),
        (b"S\t0123456789abcdef\t-\n", good(1, 0)),
        (b"S\t0123456789abcdefg\t-\n", refused(2, 1)),
        (b"S\t7\ta\nT\t7\t7\nT\t7\t7\n", refused(5, 3)),
        (b"", refused(8, 0)),
        (b"T\t7\t7\n", refused(4, 1)),
        (b"S\t7\ta", refused(2, 1)),
        (TEXT_0417, good(2, 2)),
    ];
    for (text, answer) in stated {
        let (given, words, places) = read(side, text);
        expect(&format!("text b\"{}\"", text.escape_ascii()), answer, given)?;
        if answer.refusal != 0 {
            expect("words of a refused reading that are not 0", false, words.concat().iter().any(|&word| word != 0))?;
            expect("places of a refused reading", &[0; 6][..], &places[..])?;
        }
    }
    let long = vec![b'S'; 1_048_577];
    expect("a text of 1,048,577 bytes", refused(1, 0), read(side, &long).0)?;
    expect("a text of 1,048,576 bytes", refused(2, 1), read(side, &long[1..]).0)
}

/// So many states, each with transitions to the next ones, until there are so many.
fn large_text(states: usize, transitions: usize) -> Vec<u8> {
    let mut lines: Vec<Vec<u8>> = (0..states).map(|state| format!("S\t{state}\ta").into_bytes()).collect();
    for transition in 0..transitions {
        let (from, to) = (transition % states, (transition + 1 + transition / states) % states);
        lines.push(format!("T\t{from}\t{to}").into_bytes());
    }
    texts::text(&lines)
}

/// "The rooms hold as many states as the least of 4,096, [..]; and as many transitions as the lesser of 16,384 and target words."
fn hold_largest_texts(side: &Side) -> Result<(), String> {
    let read = |states, transitions, more: usize| {
        let (mut offsets, mut targets) = (vec![9; 4_097 + more], vec![9; 16_384 + more]);
        let (mut flags, mut places) = (vec![9; 4_096 + more], vec![9; 8_192 + 2 * more]);
        let answer = (side.read)(&mut offsets, &mut targets, &mut flags, &mut places, &large_text(states, transitions));
        (answer, offsets[4_096], flags[4_095])
    };
    let good = ReadAnswer { refusal: 0, line: 0, states: 4_096, transitions: 16_384 };
    let states = ReadAnswer { refusal: 6, line: 4_097, ..ReadAnswer::default() };
    let transitions = ReadAnswer { refusal: 7, line: 20_481, ..ReadAnswer::default() };
    for more in [0, 1] {
        expect("4,096 states and 16,384 transitions", (good, 16_384, 1), read(4_096, 16_384, more))?;
        expect("4,097 states", (states, 0, 0), read(4_097, 0, more))?;
        expect("16,385 transitions", (transitions, 0, 0), read(4_096, 16_385, more))?;
    }
    Ok(())
}

/// "It reads state-list text from standard input [..], runs to the end with two workers and prints."
fn hold_program_example(side: &Side) -> Result<(), String> {
    let (answer, [offsets, targets, flags], places) = read(side, TEXT_0417);
    expect("words", (vec![0, 1, 2, 0], vec![1, 1, 0], vec![0, 1, 0]), (offsets.clone(), targets.clone(), flags.clone()))?;
    expect("places", vec![2, 4, 11, 3, 0, 0], places.clone())?;
    let (n, e) = (answer.states as usize, answer.transitions as usize);
    let (mut room, mut lasso, mut tally) = (vec![9; room_size(n, 2)], vec![9; 2 * n], Tally::default());
    let answer = (side.run_to_end)(&mut room, &mut lasso, &mut tally, &offsets[..=n], &targets[..e], &flags[..n], 0);
    expect("result", RunAnswer { refusal: 0, answer: CYCLE, stem: 1, loop_: 1, used: 9 }, answer)?;
    expect("tally", Tally { outer: 4, inner: 2, waits: 0, moves: 9 }, tally)?;
    let label = |state: u16| {
        let (start, length) = (places[2 * usize::from(state)] as usize, places[2 * usize::from(state) + 1] as usize);
        &TEXT_0417[start..start + length]
    };
    expect("stem and loop", (&b"0417"[..], &b"417"[..]), (label(lasso[0]), label(lasso[1])))
}

/// "P = 8 runs, P = 9 is refused; room one word short is 11; lasso room 2N runs, 2N − 1 is 12." And the largest room: 172,064 words.
fn hold_limits(side: &Side) -> Result<(), String> {
    let refusal = |words: &Words, workers: u64, room: usize, lasso: usize| {
        let (mut room, mut lasso, mut tally) = (vec![9; room], vec![9; lasso], Tally::default());
        (side.run)(&mut room, &mut lasso, &mut tally, &[0], &words.offsets, &words.targets, &words.flags, workers).refusal
    };
    let one = Words::new(&[vec![0]], &[1]);
    let most = many_states(4_096);
    expect("P = 8", 0, refusal(&one, 8, room_size(1, 8), 2))?;
    expect("P = 9", 9, refusal(&one, 9, room_size(1, 9), 2))?;
    expect("room one word short", 11, refusal(&one, 8, room_size(1, 8) - 1, 2))?;
    expect("lasso room of 2N - 1 words", 12, refusal(&one, 8, room_size(1, 8), 1))?;
    expect("the largest room", 0, refusal(&most, 8, 172_064, 8_192))?;
    expect("the largest room, one word short", 11, refusal(&most, 8, 172_063, 8_192))?;
    expect("4,097 states", 10, refusal(&many_states(4_097), 8, 200_000, 9_000))
}
