// What is measured: the words of graphs, and texts, by the name of their shape and their size.

use super::random::Random;

pub struct Graph {
    pub offsets: Vec<u16>,
    pub targets: Vec<u16>,
    pub flags: Vec<u16>,
}

/// The graph of a name, with n states and, where the name leaves it open, e transitions.
pub fn graph(name: &str, n: usize, e: usize) -> Graph {
    let successors = match name {
        "loop" => (0..n).map(|s| vec![(s + 1) % n]).collect(),
        "chain" => (0..n).map(|s| (s + 1..n.min(s + 2)).collect()).collect(),
        "star" => (0..n).map(|s| if s == 0 { (1..n).collect() } else { vec![] }).collect(),
        _ => forward(n, e),
    };
    let mut random = Random::new(2, 0);
    let marked = |s: usize| match name {
        "few" => random.once_in(64),
        "half" => random.once_in(2),
        "all" | "chain" | "star" => true,
        "loop" => s == n - 1,
        _ => panic!("few, half, all, loop, chain or star"),
    };
    let flags = (0..n).map(marked).map(u16::from).collect();
    let mut offsets = vec![0];
    let mut targets = vec![];
    for list in successors {
        targets.extend(list.into_iter().map(|t| t as u16));
        offsets.push(targets.len() as u16);
    }
    Graph { offsets, targets, flags }
}

// Each state leads to the next one; further transitions lead from any state to any later one, in mixed order. So there is no loop.
fn forward(n: usize, e: usize) -> Vec<Vec<usize>> {
    let mut random = Random::new(1, 0);
    let mut successors: Vec<Vec<usize>> = (0..n).map(|s| (s + 1..n.min(s + 2)).collect()).collect();
    for _ in n - 1..e {
        loop {
            let from = random.below(n - 1);
            let to = random.from_to(from + 1, n - 1);
            if !successors[from].contains(&to) {
                successors[from].push(to);
                break;
            }
        }
    }
    for list in &mut successors {
        random.shuffle(list);
    }
    successors
}

/// The text of a name, with n states and e transitions.
pub fn text(name: &str, n: usize, e: usize) -> Vec<u8> {
    match name {
        "ordinary" => ordinary(n, e),
        "hostile" => one_chain(n, e, 4),
        "worst" => one_chain(n, e, 128),
        _ => panic!("ordinary, hostile or worst"),
    }
}

fn written(labels: &[Vec<u8>], transitions: &[(usize, usize)]) -> Vec<u8> {
    let mut text = vec![];
    for (s, label) in labels.iter().enumerate() {
        let flag: &[u8] = if s % 3 == 0 { b"a" } else { b"-" };
        text.extend([b"S\t", &label[..], b"\t", flag, b"\n"].concat());
    }
    for &(from, to) in transitions {
        text.extend([b"T\t", &labels[from][..], b"\t", &labels[to], b"\n"].concat());
    }
    text
}

// Labels of 5 to 12 bytes, and as many successors for each state, in mixed order.
fn ordinary(n: usize, e: usize) -> Vec<u8> {
    let places = ["t1", "t2", "bay", "mid", "top", "hall", "pier", "dock", "east", "west", "gate", "lift", "north", "south", "tower", "plaza"];
    let phases = ["on", "ok", "off", "ack", "new", "old", "err", "idle", "show", "wait", "load", "send", "hold", "poll", "next", "last"];
    let mut labels = vec![];
    for place in places {
        for phase in phases {
            labels.push(format!("{place}.{phase}").into_bytes());
            labels.extend((1..16).map(|k| format!("{place}.{phase}{k}").into_bytes()));
        }
    }
    let mut random = Random::new(1, 0);
    random.shuffle(&mut labels);
    labels.truncate(n);
    let mut transitions = vec![];
    for from in 0..n {
        let (first, step) = (random.below(n), random.from_to(1, n / 4 - 1));
        transitions.extend((0..e / n).map(|k| (from, (first + k * step) % n)));
    }
    random.shuffle(&mut transitions);
    written(&labels, &transitions)
}

// All states in one chain of the reader's table, and all transitions from the first `sources` states. The chain goes from the last declared to the
// first, so their labels are found at its end. From four states they lead to every state; from 128 of 4,096 they lead to each of the 128, and both labels are
// found there.
fn one_chain(n: usize, e: usize, sources: usize) -> Vec<u8> {
    let each = e / sources;
    let transitions: Vec<_> = (0..e).map(|k| (k / each, k % each)).collect();
    written(&one_bucket(n), &transitions)
}

fn word(bytes: &[u8]) -> u64 {
    bytes.iter().fold(0, |v, &b| v * 256 + u64::from(b))
}

// The bucket of a label: crates/pairs/specs/Pairs.antt, of the two words of crates/lines/specs/Found.antt.
fn bucket(label: &[u8]) -> u64 {
    let (first, second) = label.split_at(8);
    (word(first) % 65_521 * 4_099 + word(second) % 65_521) % 16_384
}

// Labels of 16 bytes that begin alike and are all of one bucket.
fn one_bucket(count: usize) -> Vec<Vec<u8>> {
    let bytes = b"ABCDEFGHIJKLMNOPQRSTUVWXYZabcdefghijklmnopqrstuvwxyz0123456789-_.";
    let start = b"sign.platfo";
    let mut labels: Vec<Vec<u8>> = vec![];
    for k in 0.. {
        let middle = [bytes[k / 4_225], bytes[k / 65 % 65], bytes[k % 65]];
        let before = word(&[&start[8..], &middle].concat()) * 65_536 % 65_521;
        for residue in (0..65_521).step_by(16_384) {
            let end = (residue + 65_521 - before) % 65_521;
            let end = [(end / 256) as u8, (end % 256) as u8];
            if end.iter().all(|b| bytes.contains(b)) {
                labels.push([&start[..], &middle, &end].concat());
            }
        }
        if labels.len() >= count {
            break;
        }
    }
    labels.truncate(count);
    assert!(labels.iter().all(|label| bucket(label) == bucket(&labels[0])), "one bucket");
    labels
}
