// Measures the proved library against plain Rust. bench/run calls it, and makes the tables.
//   bench once WHO WHAT SHAPE N E P    one call, of which bench/run counts the instructions
//   bench time WHO WHAT SHAPE N E P    the median times of ours and of WHO, in turn, in microseconds
// WHO is ours, twin (tests/twin) or layout (only for runs); WHAT is is_graph, read or run (to the end, by P workers); SHAPE is a name of lists.rs.
// Every call is held to the twin's: answer and all lent words.

mod layout;
mod lists;
#[allow(dead_code)]
#[path = "../tests/twin/ours.rs"]
mod ours;
#[allow(dead_code)]
#[path = "../tests/twin/plain.rs"]
mod plain;
#[allow(dead_code)]
#[path = "../tests/twin/random.rs"]
mod random;

use lists::Graph;
use plain::{ReadAnswer, RunAnswer, Tally};
use std::time::{Duration, Instant};

const ROUNDS: usize = 21;

/// A call: what is lent to it, and what comes of it.
trait Call: Clone {
    fn by(&mut self, who: &str);
    fn same(&self, other: &Self) -> bool;
}

#[derive(Clone)]
struct Check<'a> {
    graph: &'a Graph,
    good: bool,
}

impl Call for Check<'_> {
    fn by(&mut self, who: &str) {
        let Graph { offsets, targets, flags } = self.graph;
        self.good = match who {
            "ours" => ours::is_graph(offsets, targets, flags),
            "twin" => plain::is_graph(offsets, targets, flags),
            _ => usage(),
        };
    }

    fn same(&self, other: &Self) -> bool {
        self.good && other.good
    }
}

#[derive(Clone)]
struct Reading<'a> {
    text: &'a [u8],
    offsets: Vec<u16>,
    targets: Vec<u16>,
    flags: Vec<u16>,
    places: Vec<u32>,
    answer: ReadAnswer,
}

impl Call for Reading<'_> {
    fn by(&mut self, who: &str) {
        let read = match who {
            "ours" => ours::read,
            "twin" => plain::read,
            _ => usage(),
        };
        self.answer = read(&mut self.offsets, &mut self.targets, &mut self.flags, &mut self.places, self.text);
    }

    fn same(&self, other: &Self) -> bool {
        let lists = |r: &Self| (r.offsets.clone(), r.targets.clone(), r.flags.clone(), r.places.clone());
        self.answer.refusal == 0 && self.answer == other.answer && lists(self) == lists(other)
    }
}

#[derive(Clone)]
struct Run<'a> {
    graph: &'a Graph,
    workers: usize,
    room: Vec<u16>,
    lasso: Vec<u16>,
    tally: Tally,
    answer: Option<RunAnswer>,
}

impl Call for Run<'_> {
    fn by(&mut self, who: &str) {
        let Graph { offsets, targets, flags } = self.graph;
        let run = match who {
            "ours" => ours::run_to_end,
            "twin" => plain::run_to_end,
            "layout" => {
                self.tally = layout::run_to_end(&mut self.room, &mut self.lasso, offsets, targets, flags, self.workers);
                return;
            }
            _ => usage(),
        };
        self.answer = Some(run(&mut self.room, &mut self.lasso, &mut self.tally, offsets, targets, flags, self.workers as u64));
    }

    // the one with the same layout gives no answer of its own
    fn same(&self, other: &Self) -> bool {
        let answers = self.answer.is_none() || other.answer.is_none() || self.answer == other.answer;
        answers && self.tally == other.tally && self.room == other.room && self.lasso == other.lasso
    }
}

/// What is counted and timed.
#[inline(never)]
fn measured(call: &mut impl Call, who: &str) -> Duration {
    let start = Instant::now();
    call.by(who);
    start.elapsed()
}

fn once(call: &impl Call, who: &str) {
    let (mut one, mut twin) = (call.clone(), call.clone());
    measured(&mut one, who);
    twin.by("twin");
    assert!(one.same(&twin), "the twin comes to something else");
}

// In turn, so that what else the machine does falls on both.
fn time(call: &impl Call, who: &str) {
    let mut times = [vec![], vec![]];
    for _ in 0..ROUNDS {
        for (name, list) in ["ours", who].iter().zip(&mut times) {
            list.push(measured(&mut call.clone(), name));
        }
    }
    let [ours, other] = times.map(|mut list| {
        list.sort();
        list[ROUNDS / 2].as_secs_f64() * 1e6
    });
    println!("{ours:.1} {other:.1}");
}

fn go(how: &str, who: &str, call: &impl Call) {
    match how {
        "once" => once(call, who),
        "time" => time(call, who),
        _ => usage(),
    }
}

fn usage() -> ! {
    panic!("bench once|time ours|twin|layout is_graph|read|run SHAPE N E P");
}

fn main() {
    let words: Vec<String> = std::env::args().skip(1).collect();
    let [how, who, what, shape, n, e, p] = &words[..] else { usage() };
    let [n, e, p]: [usize; 3] = [n, e, p].map(|word| word.parse().unwrap_or_else(|_| usage()));
    match &what[..] {
        "is_graph" => go(how, who, &Check { graph: &lists::graph(shape, n, e), good: false }),
        "read" => {
            let text = lists::text(shape, n, e);
            let (offsets, targets, flags, places) = (vec![7; n + 1], vec![7; e], vec![7; n], vec![7; 2 * n]);
            go(how, who, &Reading { text: &text, offsets, targets, flags, places, answer: ReadAnswer::default() });
        }
        "run" => {
            let graph = lists::graph(shape, n, e);
            let (room, lasso) = (vec![7; plain::room_size(n, p)], vec![7; 2 * n]);
            go(how, who, &Run { graph: &graph, workers: p, room, lasso, tally: Tally::default(), answer: None });
        }
        _ => usage(),
    }
}
