#!/usr/bin/env python3
"""Brings the names that the repository declares in antt to one spelling: values, lemmas and fields in snake case, a dash as `_`. Types keep their capitals,
and so do functions of src/, exported names, strings and what the prover makes. Run once at the top, after port.py; it goes over sources, definitions, proofs, must-fail
edits and pages, by whole words, and prints how many names it turned; then lays the crates out (rt fmt). A lemma that would have its definition's name gets `_lem`.
"""
import collections
import glob
import re
import subprocess

# Names that would fall together otherwise, by folder: the lemma or the field, and its new name.
OTHERS = {
    "crates/asked/": {"is-number": "is_number_lem"},
    "crates/ends/": {"outer-depth": "outer_depth_lem", "inner-depth": "inner_depth_lem", "outer-words": "outer_words_lem", "inner-words": "inner_words_lem"},
    "crates/lines/": {"front_of": "front_of_lem"},
    "crates/pairs/": {"found-at": "found_at_lem"},
    "crates/programs/": {"end-lines": "end_lines_lem", "run-lines": "run_lines_lem"},
    "crates/report/": {"field_own": "own_at"},
    "crates/search/": {"at-end": "stopped_at_end"},
    "crates/search/proofs/Promises.antt": {"is-graph": "is_graph_lem", "word_number": "word_number_lem"},
    "crates/statelist/": {"found-at": "found_at_lem"},
    "crates/statelist/proofs/Declared.antt": {"is-label": "is_label_lem"},
    "crates/steps/": {"at-end": "stopped_at_end"},
    "crates/steps/proofs/Stood.antt": {"at-end": "stopped_at_end", "is_open": "is_open_lem"},
    "crates/text/": {"first-line": "first_line_lem", "is-nil": "is_nil_lem"},
    "crates/theory/": {"is-done": "is_done_lem"},
    "crates/turn/": {"outer-ended": "outer_ended_lem", "others-red": "others_red_lem", "on-stretch": "on_stretch_lem", "dyed-to": "dyed_to_lem"},
}
EVERYWHERE = {"told·reading": "told_reading", "run_call": "run_is_call", "run-call": "run_is_call", "end-call": "end_is_call"}
KINDS = r"(?:(?:pub|abbrev|unfoldable)\s+)*"
WORD = re.compile(r"[^\s(){}\[\],;.`\"]+")


def snake(name):
    if re.match(r"[a-z]", name):
        name = re.sub(r"(?<=[a-z0-9])([A-Z])", lambda found: "_" + found[1].lower(), name)
    return name.replace("-", "_")


def declared(path):
    """The values, lemmas and fields that a file declares, with their types as far as the line goes."""
    for line in open(path, encoding="utf-8"):
        found = re.match(r"\s*(?:let )?" + KINDS + r"([^\s(:{|→×]+)(?:\s*\{[^}:]*\})?\s*:(?:\s+(.*))?$", line.rstrip())
        if found and not line.startswith("use "):
            yield found[1], found[2] or ""


def turn(path, names, known):
    """Turns the words of a file. In comments, pages and edits, which port.py leaves, also those whose new form is declared."""
    text = open(path, encoding="utf-8").read()
    told = lambda found: names.get(found[0], snake(found[0]) if snake(found[0]) in known else found[0])
    if not path.endswith(".md"):
        text = re.sub(r"(?m)^\s*(?:--|//|#) .*$", lambda found: re.sub(r"(?<=`)[^`\n ]+(?=`)", told, found[0]), text)
    parts = re.split(r'("(?:\\.|[^"\\\n])*")', text) if path.endswith((".rt", ".antt")) else [text]
    if path.endswith(".md"):
        parts = re.split(r"(?<=`)([^`\n]*)(?=`)", text)
        wanted = range(1, len(parts), 2)
    else:
        wanted = range(0, len(parts), 2)
    for i in wanted:
        parts[i] = WORD.sub(told if path.endswith((".md", ".edit")) else lambda found: names.get(found[0], found[0]), parts[i])
    open(path, "w", encoding="utf-8").write("".join(parts))


def main():
    antt = sorted(glob.glob("crates/*/specs/**/*.antt", recursive=True) + glob.glob("crates/*/proofs/**/*.antt", recursive=True))
    walks = [p for p in antt if p.endswith("/Proof.antt")]
    names, known = {}, set()
    for path in antt:
        if path not in walks:
            for name, _ in declared(path):
                known.add(snake(name))
                if snake(name) != name:
                    names[name] = snake(name)
    names.update(EVERYWHERE)
    together = collections.defaultdict(set)
    for old, new in names.items():
        together[new].add(old)
    print("%d names; turned alike: %s" % (len(names), sorted(sorted(olds) for olds in together.values() if len(olds) > 1)))
    for path in antt + sorted(glob.glob("crates/*/src/**/*.rt", recursive=True)) + sorted(glob.glob("crates/*/must-fail/*.edit")) + ["README.md"] + sorted(glob.glob("docs/*.md")):
        own = dict(names)
        if path in walks:        # a walk's own helpers; its goals and steps have the prover's names
            own.update((n, snake(n)) for n, kind in declared(path) if not kind.startswith("tie.") and not n.endswith("-spec"))
        elif path.endswith(".antt"):        # what stands in the file alone: parameters and locals, which no import brings in
            text = open(path, encoding="utf-8").read()
            brought = {n.strip() for found in re.finditer(r"^use \S+\.\{([^}]*)\}", text, re.M) for n in found[1].split(",")}
            for word in WORD.findall(re.sub(r"--.*", "", text)):
                if word not in brought and re.match(r"[a-zA-Z][\w']*-\w|[a-z]+[A-Z]", word) and word not in own:
                    own[word] = snake(word)
        for folder, others in OTHERS.items():
            if path.startswith(folder):
                own.update(others)
        turn(path, own, known)
    for crate in sorted(glob.glob("crates/*/")):
        subprocess.run(["rt", "fmt"], cwd=crate, check=True, stdout=subprocess.DEVNULL)


if __name__ == "__main__":
    main()
