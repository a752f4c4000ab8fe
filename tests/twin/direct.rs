// Checks of a run's answer that share nothing with the search: the lasso is walked, and small graphs are searched by plain reachability.

use super::graphs::Words;

/// The states that one or more transitions lead to from the state.
fn reached_from(words: &Words, state: usize) -> Vec<bool> {
    let mut reached = vec![false; words.flags.len()];
    let mut left = vec![state];
    while let Some(state) = left.pop() {
        for &target in words.successors(state) {
            if !reached[usize::from(target)] {
                reached[usize::from(target)] = true;
                left.push(usize::from(target));
            }
        }
    }
    reached
}

/// Whether a marked state that can be reached from state 0 lies on a loop. The words are a graph.
pub fn has_marked_loop(words: &Words) -> bool {
    let mut reached = reached_from(words, 0);
    reached[0] = true;
    (0..words.flags.len()).any(|state| reached[state] && words.flags[state] == 1 && reached_from(words, state)[state])
}

/// What is wrong with the lasso, if anything: it has to be a path from state 0, its loop has to close and to hold a marked state.
pub fn lasso_fault(words: &Words, lasso: &[u16], stem: u32, loop_: u32) -> Option<String> {
    let (stem, length) = (stem as usize, stem as usize + loop_ as usize);
    if loop_ == 0 || length > lasso.len() {
        return Some(format!("a loop of {loop_} states after a stem of {stem} in a lasso room of {} words", lasso.len()));
    }
    let path = &lasso[..length];
    if path[0] != 0 {
        return Some("the lasso does not start at state 0".to_string());
    }
    let closing = (path[length - 1], path[stem]);
    let steps = path.windows(2).map(|pair| (pair[0], pair[1])).chain([closing]);
    for (from, to) in steps {
        if usize::from(from) >= words.flags.len() || !words.successors(usize::from(from)).contains(&to) {
            return Some(format!("the lasso goes from {from} to {to}, which is no transition"));
        }
    }
    if !path[stem..].iter().any(|&state| words.flags[usize::from(state)] == 1) {
        return Some("the loop has no marked state".to_string());
    }
    None
}
