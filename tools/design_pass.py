#!/usr/bin/env python3
"""design_pass.py [DIR]: counts, for each crate of the checkout DIR, the places that docs/DESIGN-PASS.md speaks of, as far as text tells them.
With -v it prints each place as file:line."""
import collections
import glob
import os
import re
import sys

verbose = '-v' in sys.argv
folder = next((a for a in sys.argv[1:] if a != '-v'), '.')

GROUPS = {  # parameters that always travel together
    'offsets targets flags': ['offsets', 'targets', 'flags'],
    'first second head next': ['first', 'second', 'head', 'next'],
    'page at': ['page', 'at'],
    'text places': ['text', 'places'],
    'kinds': ['kinds'],
    't n': ['t', 'n'],
    'room n': ['room', 'n'],
    'room a': ['room', 'a'],
}
LINES = {
    # 1: an enum, a flag or a number of a kind; which of these have the shape of Option or Result is read off the list
    '1 enums, flags, numbers': r'^\s*(pub )?enum \w+|^\s*(pub )?\w+: bool,|\bnumber: u(16|32)\b|-> u16$|\bkinds?\b.*-> (u8|\[u8; 256\])',
    '3 while': r'\bwhile\b',
    '4 conversions': r'\b(wide|narrow|whole)\(',
    '4 by hand': r'\bfn (wide|narrow|whole|clear|clear_places|copy|least|less_one|above|zeroes|is_digit|is_end|is_dash|find|number|kind|seed|place_of)\b',
    '4 bare derives': r'derive\(Drop\)',
    '7 switches': r'\bending\b.*:.*bool|\bfn\(',
}


def functions(text):
    """Each function's name, line and the names of its parameters."""
    for m in re.finditer(r'\bfn (\w+)(?:<[^>]*>)?\(', text):
        depth, i = 1, m.end()
        while depth:
            depth += {'(': 1, ')': -1}.get(text[i], 0)
            i += 1
        names = re.findall(r'(?:^|,)\s*(?:mut )?(\w+)\s*:', re.sub(r'\([^()]*\)|\[[^\[\]]*\]|<[^<>]*>', '', text[m.end():i - 1]))
        yield m[1], text.count('\n', 0, m.start()) + 1, names


counts = collections.defaultdict(collections.Counter)
wide = 0
for path in sorted(glob.glob(f'{folder}/crates/*/src/*.rt')):
    crate = path.split('/crates/')[1].split('/')[0]
    text = open(path).read()
    code = re.sub(r'//[^\n]*', '', text)
    for name, pattern in LINES.items():
        for k, line in enumerate(code.split('\n'), 1):
            for _ in re.finditer(pattern, line):
                counts[name][crate] += 1
                if verbose:
                    print(f'{name}: {os.path.relpath(path, folder)}:{k}: {line.strip()}')
    for function, line, names in functions(code):
        if len(names) >= 9:
            wide += 1
        for group, parts in GROUPS.items():
            if set(parts) <= set(names):
                counts['5 ' + group][crate] += 1
                if verbose:
                    print(f'5 {group}: {os.path.relpath(path, folder)}:{line}: {function}')
for path in sorted(glob.glob(f'{folder}/crates/*/proofs/**/*.antt', recursive=True)):
    crate = path.split('/crates/')[1].split('/')[0]
    text = open(path).read()
    kind = 'Answers' if path.endswith('/Answers.antt') else 'Invariants' if path.endswith('/Invariants.antt') else 'lemmas'
    counts[f'8 lines of {kind}'][crate] += text.count('\n')
# lemmas that nothing cites
everything = ''
for path in glob.glob(f'{folder}/crates/**/*', recursive=True) + glob.glob(f'{folder}/docs/*.md') + [f'{folder}/README.md']:
    if '/out/' not in path and os.path.isfile(path) and re.search(r'\.(antt|rt|md|edit)$', path):
        if not path.endswith('DESIGN-PASS.md') and not path.endswith('PORT.md'):
            everything += open(path).read() + '\n'
words = collections.Counter(re.findall(r"[\w'?]+", everything))
for path in sorted(glob.glob(f'{folder}/crates/*/proofs/*.antt')):
    crate = path.split('/crates/')[1].split('/')[0]
    text = open(path).read()
    for name in re.findall(r"^(?:pub )?([\w'?]+) :", text, re.M):
        here = len(re.findall(rf"(?m)^\s*{re.escape(name)}(?=[ ]).*=|^(?:pub )?{re.escape(name)} :", text))
        if words[name] <= here:
            counts['8 cited by nothing'][crate] += 1
            if verbose:
                print(f'8 cited by nothing: {os.path.relpath(path, folder)}: {name}')
for name in sorted(counts):
    c = counts[name]
    print(f'{name}: {sum(c.values())} ({", ".join(f"{k} {v}" for k, v in sorted(c.items()))})')
print(f'functions of nine parameters or more: {wide}')
