// Runs a case with the plain implementation and with ours, and compares the results and every word lent.

use super::cases::{most_moves, Case, Reading, Run};
use super::direct;
use super::graphs::Words;
use super::lent::{Lent, Word};
use super::plain::{RunAnswer, Tally};
use super::{ours, plain};

/// The kinds of cases; each has to be met in a long enough run.
pub const KINDS: [&str; 30] = [
    "reading: refusal 1",
    "reading: refusal 2",
    "reading: refusal 3",
    "reading: refusal 4",
    "reading: refusal 5",
    "reading: refusal 6",
    "reading: refusal 7",
    "reading: refusal 8",
    "reading: read",
    "run: refusal 9",
    "run: refusal 10",
    "run: refusal 11",
    "run: refusal 12",
    "run: refusal 13",
    "run: undecided",
    "run: cycle",
    "run: none",
    "run to the end: refusal 9",
    "run to the end: refusal 10",
    "run to the end: refusal 11",
    "run to the end: refusal 12",
    "run to the end: cycle",
    "run to the end: none",
    "graph check: a graph",
    "graph check: not a graph",
    "of these with a wait: run: undecided",
    "of these with a wait: run: cycle",
    "of these with a wait: run: none",
    "of these with a wait: run to the end",
    "of these compared with a direct search",
];

/// The kinds from this one on are of cases that are counted above already.
pub const OF_THESE: usize = 25;

/// How many cases there were of each kind.
pub struct Met {
    pub counts: [u64; KINDS.len()],
}

impl Met {
    fn meet(&mut self, kind: &str) -> Result<(), String> {
        let index = KINDS.iter().position(|&known| known == kind).ok_or(format!("plain gives an answer that 01 does not have: {kind}"))?;
        self.counts[index] += 1;
        Ok(())
    }
}

/// What is wrong, if anything.
pub fn check(case: &Case, met: &mut Met) -> Result<(), String> {
    match case {
        Case::Graph(words) => check_graph(words, met),
        Case::Reading(reading) => check_reading(reading, met),
        Case::Run(run) => check_run(run, met),
    }
}

fn same<T: PartialEq + std::fmt::Debug>(what: &str, plain: T, ours: T) -> Result<(), String> {
    if plain == ours {
        Ok(())
    } else {
        Err(format!("{what}: plain {plain:?}, ours {ours:?}"))
    }
}

fn same_words<T: Word>(what: &str, plain: &[T], ours: &Lent<T>) -> Result<(), String> {
    ours.difference(what, plain).map_or(Ok(()), Err)
}

fn check_graph(words: &Words, met: &mut Met) -> Result<(), String> {
    let plain = plain::is_graph(&words.offsets, &words.targets, &words.flags);
    let lent = LentWords::new(words);
    let ours = ours::is_graph(lent.offsets.words(), lent.targets.words(), lent.flags.words());
    same("is a graph", plain, ours)?;
    lent.unchanged(words)?;
    met.meet(if plain { "graph check: a graph" } else { "graph check: not a graph" })
}

/// A graph's words, lent to be read only.
struct LentWords {
    offsets: Lent<u16>,
    targets: Lent<u16>,
    flags: Lent<u16>,
}

impl LentWords {
    fn new(words: &Words) -> LentWords {
        LentWords { offsets: Lent::new(&words.offsets), targets: Lent::new(&words.targets), flags: Lent::new(&words.flags) }
    }

    fn unchanged(&self, words: &Words) -> Result<(), String> {
        same_words("offsets", &words.offsets, &self.offsets)?;
        same_words("targets", &words.targets, &self.targets)?;
        same_words("flags", &words.flags, &self.flags)
    }
}

fn check_reading(case: &Reading, met: &mut Met) -> Result<(), String> {
    let (mut offsets, mut targets) = (case.offsets.clone(), case.targets.clone());
    let (mut flags, mut places) = (case.flags.clone(), case.places.clone());
    let plain = plain::read(&mut offsets, &mut targets, &mut flags, &mut places, &case.text);

    let (mut our_offsets, mut our_targets) = (Lent::new(&case.offsets), Lent::new(&case.targets));
    let (mut our_flags, mut our_places) = (Lent::new(&case.flags), Lent::new(&case.places));
    let text = Lent::new(&case.text);
    let ours = ours::read(our_offsets.words_mut(), our_targets.words_mut(), our_flags.words_mut(), our_places.words_mut(), text.words());

    same("result", plain, ours)?;
    same_words("offsets", &offsets, &our_offsets)?;
    same_words("targets", &targets, &our_targets)?;
    same_words("flags", &flags, &our_flags)?;
    same_words("places", &places, &our_places)?;
    same_words("text", &case.text, &text)?;
    match plain.refusal {
        0 => met.meet("reading: read"),
        refusal => met.meet(&format!("reading: refusal {refusal}")),
    }
}

fn check_run(case: &Run, met: &mut Met) -> Result<(), String> {
    let (mut room, mut lasso, mut tally) = (case.room.clone(), case.lasso.clone(), case.tally);
    let Words { offsets, targets, flags } = &case.words;
    let plain = match &case.turns {
        Some(turns) => plain::run(&mut room, &mut lasso, &mut tally, turns, offsets, targets, flags, case.workers),
        None => plain::run_to_end(&mut room, &mut lasso, &mut tally, offsets, targets, flags, case.workers),
    };

    let (mut our_room, mut our_lasso, mut our_tally) = (Lent::new(&case.room), Lent::new(&case.lasso), Lent::new(&[case.tally]));
    let words = LentWords::new(&case.words);
    let turns = Lent::new(case.turns.as_deref().unwrap_or(&[]));
    let (room_lent, lasso_lent, tally_lent) = (our_room.words_mut(), our_lasso.words_mut(), &mut our_tally.words_mut()[0]);
    let (offsets, targets, flags) = (words.offsets.words(), words.targets.words(), words.flags.words());
    let ours = match &case.turns {
        Some(_) => ours::run(room_lent, lasso_lent, tally_lent, turns.words(), offsets, targets, flags, case.workers),
        None => ours::run_to_end(room_lent, lasso_lent, tally_lent, offsets, targets, flags, case.workers),
    };

    same("result", plain, ours)?;
    same_words("tally", &[tally], &our_tally)?;
    same_words("room", &room, &our_room)?;
    same_words("lasso room", &lasso, &our_lasso)?;
    same_words("turns", case.turns.as_deref().unwrap_or(&[]), &turns)?;
    words.unchanged(&case.words)?;
    if plain.refusal == 0 {
        check_answer(case, &plain, &tally, &lasso, met)?;
    }
    met.meet(&run_kind(case, &plain))
}

fn run_kind(case: &Run, answer: &RunAnswer) -> String {
    let call = if case.turns.is_some() { "run" } else { "run to the end" };
    match answer.refusal {
        0 => format!("{call}: {}", answer_name(answer)),
        refusal => format!("{call}: refusal {refusal}"),
    }
}

fn answer_name(answer: &RunAnswer) -> &'static str {
    ["undecided", "cycle", "none"].get(answer.answer as usize).copied().unwrap_or("another answer")
}

/// Holds an answer that both sides give to the graph itself.
fn check_answer(case: &Run, answer: &RunAnswer, tally: &Tally, lasso: &[u16], met: &mut Met) -> Result<(), String> {
    let name = answer_name(answer);
    if name == "cycle" {
        direct::lasso_fault(&case.words, lasso, answer.stem, answer.loop_).map_or(Ok(()), Err)?;
    } else if answer.stem != 0 || answer.loop_ != 0 {
        return Err(format!("a lasso with {name}"));
    }
    let workers = if case.workers == 0 { 2 } else { case.workers };
    if tally.moves > most_moves(&case.words, workers as usize) as u64 || tally.moves + tally.waits > answer.used {
        return Err(format!("too many moves: {tally:?}, {} turns used", answer.used));
    }
    match &case.turns {
        Some(turns) if answer.used > turns.len() as u64 => return Err("more turns used than there are".to_string()),
        Some(turns) if name == "undecided" && answer.used < turns.len() as u64 => return Err("undecided before the last turn".to_string()),
        _ => {}
    }
    if name != "undecided" && case.words.flags.len() * case.words.targets.len() <= 5_000 {
        let found = direct::has_marked_loop(&case.words);
        if found != (name == "cycle") {
            return Err(format!("the answer is {name}, but a direct search {} a loop", if found { "finds" } else { "does not find" }));
        }
        met.meet("of these compared with a direct search")?;
    }
    if tally.waits > 0 {
        let call = if case.turns.is_some() { format!("run: {name}") } else { "run to the end".to_string() };
        met.meet(&format!("of these with a wait: {call}"))?;
    }
    Ok(())
}
