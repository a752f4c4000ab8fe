// The words of graphs: random graphs of many shapes, words that are not graphs in each clause of 01's sentence, and all graphs of few states.

use super::random::Random;

#[derive(Clone, Debug, Default)]
pub struct Words {
    pub offsets: Vec<u16>,
    pub targets: Vec<u16>,
    pub flags: Vec<u16>,
}

impl Words {
    pub fn new(successors: &[Vec<u16>], flags: &[u16]) -> Words {
        let mut words = Words { offsets: vec![0], targets: Vec::new(), flags: flags.to_vec() };
        for targets in successors {
            words.targets.extend_from_slice(targets);
            words.offsets.push(words.targets.len() as u16);
        }
        words
    }

    /// The successors of a state. The words are a graph.
    pub fn successors(&self, state: usize) -> &[u16] {
        &self.targets[usize::from(self.offsets[state])..usize::from(self.offsets[state + 1])]
    }
}

// Random graphs.

const SHAPES: usize = 13;

/// A graph of n states and at most `most` transitions.
pub fn random_graph(random: &mut Random, n: usize, most: usize) -> Words {
    let mut pairs = shape(random, n, most);
    if random.once_in(3) {
        rename(random, n, &mut pairs);
    }
    if !random.once_in(4) {
        random.shuffle(&mut pairs);
    }
    // Marks: none, few, half, most, all.
    let eighths = random.pick(&[0, 1, 1, 2, 4, 4, 6, 7, 8, 8]);
    graph_of(random, n, most, &pairs, eighths)
}

/// A graph in which workers often have to wait: forward only but for at most one transition, most states marked.
pub fn waiting_graph(random: &mut Random, n: usize) -> Words {
    let mut pairs: Vec<(usize, usize)> = (1..n).map(|to| (to - 1, to)).filter(|_| !random.once_in(8)).collect();
    pairs.extend((0..random.below(n + 1)).filter_map(|_| forward(random, n)));
    if !random.once_in(3) {
        let from = random.from_to(n / 2, n - 1);
        pairs.push((from, from.saturating_sub(random.pick(&[0, 1, 2, 3, from / 2]))));
    }
    random.shuffle(&mut pairs);
    let eighths = random.pick(&[4, 6, 7, 8]);
    graph_of(random, n, n * n, &pairs, eighths)
}

/// A graph in which workers have to wait now and then although they take turns: many ways forward, each by 8 states at most, hardly ever a loop.
pub fn many_ways_graph(random: &mut Random, n: usize) -> Words {
    let mut pairs = Vec::new();
    for from in 0..n {
        for _ in 0..random.from_to(2, 7) {
            pairs.push((from, from + random.from_to(1, 8)));
        }
    }
    pairs.retain(|&(_, to)| to < n);
    if random.once_in(4) {
        pairs.push((n - 1, random.from_to(n / 2, n - 1)));
    }
    random.shuffle(&mut pairs);
    let eighths = random.pick(&[4, 7, 8]);
    graph_of(random, n, n * n, &pairs, eighths)
}

/// The graph of at most so many of these transitions, each once, with so many eighths of its states marked.
fn graph_of(random: &mut Random, n: usize, most: usize, pairs: &[(usize, usize)], eighths: usize) -> Words {
    let mut successors: Vec<Vec<u16>> = vec![Vec::new(); n];
    let mut left = most;
    for &(from, to) in pairs {
        if left > 0 && !successors[from].contains(&(to as u16)) {
            successors[from].push(to as u16);
            left -= 1;
        }
    }
    let flags: Vec<u16> = (0..n).map(|_| u16::from(random.below(8) < eighths)).collect();
    Words::new(&successors, &flags)
}

/// The transitions of a graph of a random shape; the same one may come twice.
fn shape(random: &mut Random, n: usize, most: usize) -> Vec<(usize, usize)> {
    let chain = || (1..n).map(|to| (to - 1, to));
    let all = || (0..n).flat_map(|from| (0..n).map(move |to| (from, to)));
    let some = most.min(n * n);
    match random.below(SHAPES) {
        // Sparse, and denser.
        0 => (0..some.min(2 * n)).map(|_| (random.below(n), random.below(n))).collect(),
        1 => (0..some).map(|_| (random.below(n), random.below(n))).collect(),
        // Forward only: no loops.
        2 => (0..some.min(3 * n)).filter_map(|_| forward(random, n)).collect(),
        3 if n * n <= 4 * most => all().filter(|&(from, to)| from < to).collect(),
        // One long loop; a chain.
        4 => chain().chain([(n - 1, 0)]).collect(),
        5 => chain().collect(),
        // A chain with some transitions forward over states, and one with some back.
        6 => chain().chain((0..n / 2 + 1).filter_map(|_| forward(random, n))).collect(),
        7 => chain().chain((0..n / 4 + 1).filter_map(|_| forward(random, n).map(|(to, from)| (from, to)))).collect(),
        // Stars: from the first state, and to and fro.
        8 => (0..n).map(|to| (0, to)).collect(),
        9 => (1..n).flat_map(|to| [(0, to), (to, 0)]).collect(),
        // Every state to itself, and a chain with that.
        10 => chain().chain((0..n).map(|state| (state, state))).collect(),
        // Two components: no transition between the states below the half and those above.
        11 => (0..some.min(3 * n)).map(|_| (random.below(n), random.below(n))).filter(|(from, to)| (from * 2 < n) == (to * 2 < n)).collect(),
        // A complete graph, if there may be so many transitions.
        12 if n * n <= 4 * most => all().collect(),
        _ => (0..some.min(2 * n)).map(|_| (random.below(n), random.below(n.div_ceil(2)))).collect(),
    }
}

fn forward(random: &mut Random, n: usize) -> Option<(usize, usize)> {
    let (one, other) = (random.below(n), random.below(n));
    (one != other).then(|| (one.min(other), one.max(other)))
}

/// Gives the states other numbers; mostly state 0 keeps its own.
fn rename(random: &mut Random, n: usize, pairs: &mut [(usize, usize)]) {
    let kept = usize::from(!random.once_in(4)).min(n);
    let mut names: Vec<usize> = (0..n).collect();
    random.shuffle(&mut names[kept..]);
    for (from, to) in pairs {
        (*from, *to) = (names[*from], names[*to]);
    }
}

/// The number of states for a random graph: mostly few, rarely hundreds, very rarely thousands.
pub fn random_size(random: &mut Random) -> (usize, usize) {
    match random.below(6_000) {
        0..=3 => (random.from_to(1_000, 4_096), 16_384),
        4 | 5 => (4_096, 16_384),
        6..=60 => (random.from_to(41, 600), 1_500),
        61..=500 => (random.from_to(13, 40), 120),
        501..=2_500 => (random.from_to(1, 3), 9),
        _ => (random.from_to(3, 12), random.pick(&[20, 40, 144])),
    }
}

// Words that are not graphs.

const BREAKAGES: usize = 18;

/// Breaks a graph's words, as a rule so that they are a graph no more.
pub fn break_words(random: &mut Random, words: &mut Words) {
    let (n, e) = (words.flags.len(), words.targets.len());
    match random.below(BREAKAGES) {
        // Wrong lengths.
        0 => words.flags.push(0),
        1 => drop(words.flags.pop()),
        2 => words.offsets.push(e as u16),
        3 => drop(words.offsets.pop()),
        4 => words.targets.push(0),
        5 => drop(words.targets.pop()),
        6 => *random.pick_list(words) = Vec::new(),
        // Offsets: first not 0, last not E, falling.
        7 => set(&mut words.offsets, 0, random.pick(&[1, 2, 65_535])),
        8 => set(&mut words.offsets, n, random.pick(&[e as u16 + 1, (e as u16).wrapping_sub(1), 0, 65_535])),
        9 => set(&mut words.offsets, random.below(n), random.pick(&[e as u16, e as u16 + 1, 0, 1, 65_535])),
        10 if words.offsets.len() > 1 => {
            let first = random.below(words.offsets.len() - 1);
            words.offsets.swap(first, first + 1);
        }
        // A target that is no state.
        11 | 12 if e > 0 => set(&mut words.targets, random.below(e), random.pick(&[n as u16, n as u16 + 1, 65_535])),
        // The same target twice.
        13 | 14 if e > 1 => {
            let (one, other) = (random.below(e), random.pick(&[1, 1, 2, 3]));
            let target = words.targets[one];
            set(&mut words.targets, one + other, target);
        }
        // A flag that is neither 0 nor 1.
        15 | 16 => set(&mut words.flags, random.below(n), random.pick(&[2, 3, 256, 257, 65_535])),
        _ => *words = not_a_graph(random),
    }
}

impl Random {
    fn pick_list<'a>(&mut self, words: &'a mut Words) -> &'a mut Vec<u16> {
        match self.below(3) {
            0 => &mut words.offsets,
            1 => &mut words.targets,
            _ => &mut words.flags,
        }
    }
}

fn set(list: &mut [u16], index: usize, word: u16) {
    if let Some(place) = list.get_mut(index) {
        *place = word;
    }
}

/// Whole words that are not a graph: no states, one state too many, one transition too many, empty lists, anything.
fn not_a_graph(random: &mut Random) -> Words {
    match random.below(48) {
        0 => many_states(4_097),
        1 => many_transitions(16_385),
        2..=5 => Words::default(),
        6..=9 => Words { offsets: vec![0], ..Words::default() },
        10..=13 => Words { offsets: vec![0, 1], targets: vec![0], flags: vec![] },
        14..=17 => Words { offsets: vec![0, 0], ..Words::default() },
        18..=23 => Words { offsets: vec![0, 2], targets: vec![0, 0], flags: vec![1] },
        _ => {
            let most = random.pick(&[2, 3, 65_536]);
            let mut list = |length: usize| -> Vec<u16> { (0..random.below(length)).map(|_| random.below(most) as u16).collect() };
            Words { offsets: list(6), targets: list(6), flags: list(5) }
        }
    }
}

/// So many states without transitions.
pub fn many_states(n: usize) -> Words {
    Words { offsets: vec![0; n + 1], targets: Vec::new(), flags: vec![1; n] }
}

/// 4,096 states with so many transitions, forward by 1, 2, 3 and so on.
pub fn many_transitions(e: usize) -> Words {
    let n = 4_096;
    let mut successors = vec![Vec::new(); n];
    for transition in 0..e {
        let from = transition % n;
        successors[from].push(((from + 1 + transition / n) % n) as u16);
    }
    Words::new(&successors, &vec![0; n])
}

// All graphs of few states.

/// All lists of distinct targets below n, in every order.
fn all_target_lists(n: usize) -> Vec<Vec<u16>> {
    let mut lists: Vec<Vec<u16>> = vec![Vec::new()];
    let mut next = 0;
    while next < lists.len() {
        for target in 0..n as u16 {
            if !lists[next].contains(&target) {
                let mut longer = lists[next].clone();
                longer.push(target);
                lists.push(longer);
            }
        }
        next += 1;
    }
    lists
}

/// All graphs of n states.
pub fn all_graphs(n: usize) -> Vec<Words> {
    let lists = all_target_lists(n);
    let choices = lists.len().pow(n as u32);
    let mut graphs = Vec::with_capacity(choices << n);
    for choice in 0..choices << n {
        let flags: Vec<u16> = (0..n).map(|state| (choice >> state & 1) as u16).collect();
        let digit = |state: usize| (choice >> n) / lists.len().pow(state as u32) % lists.len();
        let successors: Vec<Vec<u16>> = (0..n).map(|state| lists[digit(state)].clone()).collect();
        graphs.push(Words::new(&successors, &flags));
    }
    graphs
}
