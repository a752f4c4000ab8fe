// The texts: good state lists with labels close to each other, and the ways to damage them.

use std::collections::HashSet;

use super::random::Random;

const LABEL_BYTES: &[u8] = b"ABCDEFGHIJKLMNOPQRSTUVWXYZabcdefghijklmnopqrstuvwxyz0123456789-_.";

// The bytes just outside the label ranges, and others that a reader may take for something else.
const OTHER_BYTES: &[u8] = b"@[`{/:,+^ !~*\\\0\x01\x08\x0b\x0c\r\x1a\x1f\x7f\x80\xad\xae\xaf\xc1\xe1\xfa\xff";

const FLAGS: &[&[u8]] = &[b"A", b"b", b"", b"aa", b"--", b"-a", b"a-", b"+", b"0", b"1", b"_", b".", b" a", b"a ", b"a\r", b"`"];
const KINDS: &[&[u8]] = &[b"s", b"t", b"", b"SS", b"ST", b"R", b"U", b"X", b" S", b"S ", b"#", b"\xef\xbb\xbfS"];

/// The lines of a text, without their line feeds.
pub type Lines = Vec<Vec<u8>>;

pub struct List {
    pub labels: Vec<Vec<u8>>,
    pub marks: Vec<bool>,
    pub pairs: Vec<(usize, usize)>,
}

// Good lists.

impl List {
    pub fn random(random: &mut Random, states: usize, transitions: usize) -> List {
        let mut pairs = Vec::new();
        let mut seen = HashSet::new();
        while pairs.len() < transitions.min(states * states) {
            let pair = (random.below(states), random.below(states));
            if seen.insert(pair) {
                pairs.push(pair);
            }
        }
        if random.once_in(4) {
            pairs.sort();
        }
        List { labels: labels(random, states), marks: (0..states).map(|_| random.once_in(2)).collect(), pairs }
    }

    pub fn lines(&self) -> Lines {
        let states = self.labels.iter().zip(&self.marks).map(|(label, &mark)| line(b"S", label, if mark { b"a" } else { b"-" }));
        let transitions = self.pairs.iter().map(|&(from, to)| line(b"T", &self.labels[from], &self.labels[to]));
        states.chain(transitions).collect()
    }
}

pub fn line(kind: &[u8], label: &[u8], last: &[u8]) -> Vec<u8> {
    [kind, label, last].join(&b'\t')
}

/// The text of the lines, each ended by a line feed.
pub fn text(lines: &[Vec<u8>]) -> Vec<u8> {
    let mut text = Vec::with_capacity(lines.iter().map(|line| line.len() + 1).sum());
    for line in lines {
        text.extend_from_slice(line);
        text.push(b'\n');
    }
    text
}

// Labels.

/// So many labels, no two the same, most of them close to each other.
fn labels(random: &mut Random, count: usize) -> Vec<Vec<u8>> {
    let base: Vec<u8> = bytes(random, 16);
    let family = random.below(FAMILIES);
    let mut labels = Vec::new();
    let mut seen = HashSet::new();
    while labels.len() < count {
        let label = if random.once_in(8) { any_label(random) } else { close_label(random, family, &base) };
        let label = if seen.contains(&label) { any_label(random) } else { label };
        if seen.insert(label.clone()) {
            labels.push(label);
        }
    }
    labels
}

fn bytes(random: &mut Random, length: usize) -> Vec<u8> {
    (0..length).map(|_| random.pick(LABEL_BYTES)).collect()
}

fn any_label(random: &mut Random) -> Vec<u8> {
    let length = random.from_to(1, 16);
    bytes(random, length)
}

const FAMILIES: usize = 8;

/// A label of the family, close to the family's others. The base has 16 bytes.
fn close_label(random: &mut Random, family: usize, base: &[u8]) -> Vec<u8> {
    let length = usize::from(base[0]) % 16 + 1;
    let mut label = base[..length].to_vec();
    let changed = random.below(length);
    match family {
        // 7, 07, 007.
        0 => {
            label = vec![b'0'; random.below(15)];
            label.extend_from_slice((random.below(12) + 1).to_string().as_bytes());
            label.truncate(16);
        }
        // The same beginning, the same end, one byte anywhere.
        1 => label[length - 1] = random.pick(LABEL_BYTES),
        2 => label[0] = random.pick(LABEL_BYTES),
        3 => label[changed] = random.pick(LABEL_BYTES),
        // Upper and lower case.
        4 => label.iter_mut().for_each(|byte| *byte = if random.once_in(2) { byte.to_ascii_uppercase() } else { byte.to_ascii_lowercase() }),
        // One label the beginning, or the end, of another.
        5 => label = base[..random.from_to(1, 16)].to_vec(),
        6 => label = base[random.below(16)..].to_vec(),
        // Few bytes.
        _ => label = (0..random.from_to(1, 4)).map(|_| random.pick(b"-_.Aa0")).collect(),
    }
    label
}

// Damage.

const DAMAGES: usize = 24;

/// Damages the lines in one way.
pub fn damage_lines(random: &mut Random, lines: &mut Lines) {
    let at = random.below(lines.len() + 1);
    let some = random.below(lines.len());
    let end = lines.len();
    match random.below(DAMAGES) {
        // Lines that stand at a wrong place, twice, or not at all.
        0 => lines.insert(at, Vec::new()),
        1 => copy_line(lines, some, at),
        2 => copy_line(lines, some, end),
        3 | 4 => copy_kind(random, lines, b'S', at),
        5 | 6 => copy_kind(random, lines, b'T', at),
        7 => copy_kind(random, lines, b'T', 0),
        8 if !lines.is_empty() => drop(lines.remove(some)),
        9 if !lines.is_empty() => lines.swap(some, at.min(end - 1)),
        10 => lines.insert(at, line(b"S", &any_label(random), b"-")),
        11 => lines.push(line(b"S", &any_label(random), b"a")),
        // One line damaged.
        12 => edit_fields(lines, some, |fields| fields.truncate(fields.len() - 1)),
        13 => edit_fields(lines, some, |fields| fields.push(if at % 2 == 0 { Vec::new() } else { b"a".to_vec() })),
        14 => edit_fields(lines, some, |fields| if let Some(field) = fields.get_mut(at % 3) { field.clear() }),
        15 => edit_fields(lines, some, |fields| fields[0] = random.pick(KINDS).to_vec()),
        16 => edit_fields(lines, some, |fields| *fields.last_mut().unwrap() = random.pick(FLAGS).to_vec()),
        17 => edit_fields(lines, some, |fields| lengthen(random, fields)),
        18 => edit_fields(lines, some, |fields| undeclare(random, fields)),
        19 if !lines.is_empty() => lines[some].push(random.pick(b"\r \t")),
        20 | 21 => edit_fields(lines, some, |fields| change_byte(random, fields)),
        // A line of any fields, faulty or not.
        _ => {
            let mixed = mixed_line(random, lines);
            lines.insert(at, mixed);
        }
    }
}

fn copy_line(lines: &mut Lines, from: usize, to: usize) {
    if let Some(line) = lines.get(from).cloned() {
        lines.insert(to, line);
    }
}

/// Copies a line of this kind; an S line now and then with the other flag.
fn copy_kind(random: &mut Random, lines: &mut Lines, kind: u8, to: usize) {
    let found: Vec<usize> = (0..lines.len()).filter(|&index| lines[index].first() == Some(&kind)).collect();
    if found.is_empty() {
        return;
    }
    copy_line(lines, random.pick(&found), to);
    if kind == b'S' && random.once_in(2) {
        edit_fields(lines, to, |fields| *fields.last_mut().unwrap() = random.pick(&[b"a", b"-"]).to_vec());
    }
}

fn edit_fields(lines: &mut Lines, index: usize, edit: impl FnOnce(&mut Vec<Vec<u8>>)) {
    if let Some(line) = lines.get_mut(index) {
        let mut fields: Vec<Vec<u8>> = line.split(|&byte| byte == b'\t').map(|field| field.to_vec()).collect();
        edit(&mut fields);
        *line = fields.join(&b'\t');
    }
}

/// Makes a field 16, 17 or more bytes long.
fn lengthen(random: &mut Random, fields: &mut [Vec<u8>]) {
    let field = random.from_to(1, 2).min(fields.len() - 1);
    fields[field].resize(random.pick(&[16, 17, 17, 18, 32, 33, 272]), b'x');
}

/// Changes a byte of a field to one that no label may hold, or puts such a byte at its end.
fn change_byte(random: &mut Random, fields: &mut [Vec<u8>]) {
    let field = random.from_to(1, 2).min(fields.len() - 1);
    let (at, byte) = (random.below(fields[field].len() + 1), random.pick(OTHER_BYTES));
    match fields[field].get_mut(at) {
        Some(place) => *place = byte,
        None => fields[field].push(byte),
    }
}

/// Changes a field so that it names another label.
fn undeclare(random: &mut Random, fields: &mut [Vec<u8>]) {
    let field = random.from_to(1, 2).min(fields.len() - 1);
    match random.below(3) {
        0 => fields[field] = any_label(random),
        1 => fields[field].insert(0, b'0'),
        _ => drop(fields[field].pop()),
    }
}

/// A line of which each field is chosen on its own, so that it may have no fault, one or several.
fn mixed_line(random: &mut Random, lines: &Lines) -> Vec<u8> {
    let kind = if random.once_in(8) { random.pick(KINDS) } else { random.pick(&[b"S", b"T"]) };
    let mut fields = vec![kind.to_vec(), mixed_field(random, lines)];
    fields.push(if random.once_in(2) { mixed_field(random, lines) } else { random.pick(&[b"a", b"-"]).to_vec() });
    if random.once_in(16) {
        fields.push(mixed_field(random, lines));
    }
    if random.once_in(16) {
        fields.remove(random.below(3));
    }
    fields.join(&b'\t')
}

fn mixed_field(random: &mut Random, lines: &Lines) -> Vec<u8> {
    let line = if lines.is_empty() { Vec::new() } else { lines[random.below(lines.len())].clone() };
    let declared = line.split(|&byte| byte == b'\t').nth(1).unwrap_or(b"").to_vec();
    match random.below(16) {
        0 => any_label(random),
        1 => bytes(random, 17),
        2 => Vec::new(),
        3 => random.pick(FLAGS).to_vec(),
        4 => vec![random.pick(OTHER_BYTES)],
        _ => declared,
    }
}

/// Damages the text in one way: a byte changed, put in or taken out, or the end cut off.
pub fn damage_bytes(random: &mut Random, text: &mut Vec<u8>) {
    let byte = match random.below(4) {
        0 => random.below(256) as u8,
        1 => random.pick(LABEL_BYTES),
        2 => random.pick(b"\t\n\r \0ST-a"),
        _ => random.pick(OTHER_BYTES),
    };
    let at = random.below(text.len() + 1);
    match random.below(8) {
        0..=2 if at < text.len() => text[at] = byte,
        3 | 4 if at < text.len() => drop(text.remove(at)),
        5 => text.truncate(at),
        6 => drop(text.pop()),
        _ => text.insert(at, byte),
    }
}
