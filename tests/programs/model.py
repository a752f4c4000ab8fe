"""A model of the two programs, written from the text of document 01: the reader, the machine's moves, the printing.

    python3 tests/programs/model.py skiffplank < text
    python3 tests/programs/model.py replay WORKERS TURNS < text

Each prints what the program of that name must print. It shares nothing with the programs, so that a slip has to be made twice to go unseen.
Quotes in the comments are from document 01. Text is bytes throughout; states are numbers from 0 in S order.
"""

import itertools
import os
import re
import sys
from collections import namedtuple

# "A refusal for which no line is named carries 0."
Refusal = namedtuple("Refusal", "number line")
# successors[s] lists the states after s in the order of the T lines of s.
Graph = namedtuple("Graph", "labels flags successors")
# What a reading may hold: bytes of text, states, transitions.
Rooms = namedtuple("Rooms", "text states transitions")
# How a run ended: the answer, stem and loop (empty unless "cycle"), the turns used and the machine after the last move made.
Result = namedtuple("Result", "answer stem loop used machine")

SKIFFPLANK_ROOMS = Rooms(32_768, 256, 1_024)
REPLAY_ROOMS = Rooms(1_048_576, 4_096, 16_384)
MOST_WORKERS = 8
USUAL_WORKERS = 2


# ---- The text

# "A label is 1 to 16 bytes of A-Z, a-z, 0-9, -, _, ." \Z and not $: $ would let a line feed through.
LABEL = rb"[A-Za-z0-9\-_.]{1,16}"
S_LINE = re.compile(rb"S\t(" + LABEL + rb")\t([a-])\Z")
T_LINE = re.compile(rb"T\t(" + LABEL + rb")\t(" + LABEL + rb")\Z")


def lines_of(text):
    """The lines without their line feeds, and whether the last had none: "each line ended by a line feed, the last too" fails then."""
    lines = text.split(b"\n")
    rest = lines.pop()
    if rest:
        lines.append(rest)
    return lines, bool(rest)


def empty_reading():
    return {"numbers": {}, "flags": [], "successors": [], "pairs": set()}


def read_s_line(reading, label, flag, rooms):
    """An S line in good form, "2, 3, 6" in that order. Returns the number refused, or None."""
    if reading["pairs"]:
        return 2
    if label in reading["numbers"]:
        return 3
    if len(reading["flags"]) == rooms.states:
        return 6
    reading["numbers"][label] = len(reading["flags"])
    reading["flags"].append(flag == b"a")
    reading["successors"].append([])
    return None


def read_t_line(reading, source, target, rooms):
    """A T line in good form, "2, 4, 5, 7" in that order. Returns the number refused, or None."""
    numbers = reading["numbers"]
    if source not in numbers or target not in numbers:
        return 4
    pair = (numbers[source], numbers[target])
    if pair in reading["pairs"]:
        return 5
    if len(reading["pairs"]) == rooms.transitions:
        return 7
    reading["pairs"].add(pair)
    reading["successors"][pair[0]].append(pair[1])
    return None


def read_line(reading, line, rooms):
    """A line that ended with a line feed. Returns the number refused, or None."""
    s_line = S_LINE.match(line)
    if s_line:
        return read_s_line(reading, s_line.group(1), s_line.group(2), rooms)
    t_line = T_LINE.match(line)
    if t_line:
        return read_t_line(reading, t_line.group(1), t_line.group(2), rooms)
    return 2


def read(text, rooms):
    """In the "order: 1 first; then line by line, ..; then 8". Returns a Graph or a Refusal."""
    if len(text) > rooms.text:
        return Refusal(1, 0)
    reading = empty_reading()
    lines, last_is_open = lines_of(text)
    for number, line in enumerate(lines, 1):
        is_open = last_is_open and number == len(lines)
        refused = 2 if is_open else read_line(reading, line, rooms)
        if refused:
            return Refusal(refused, number)
    if not reading["flags"]:
        return Refusal(8, 0)
    return Graph(list(reading["numbers"]), reading["flags"], reading["successors"])


# ---- Moves

def fresh_worker(number):
    """A stack's entry is [state, successors of it taken so far]. The seed is None but in the places inner and waiting."""
    return {"number": number, "place": "fresh", "seed": None, "cyan": set(), "R": set(), "outer": [], "inner": []}


def fresh_machine(graph, worker_count):
    # "blue and red are shared; cyan and the set R are each worker's own. All start empty."
    return {
        "graph": graph,
        "blue": set(),
        "red": set(),
        "workers": [fresh_worker(p) for p in range(worker_count)],
        "tally": {"outer entries": 0, "inner entries": 0, "waits": 0, "changes": 0},
    }


def enter_outer(machine, worker, state):
    worker["cyan"].add(state)
    worker["outer"].append([state, 0])
    machine["tally"]["outer entries"] += 1


def enter_inner(machine, worker, state):
    worker["R"].add(state)
    worker["inner"].append([state, 0])
    machine["tally"]["inner entries"] += 1


def leave_outer(worker):
    # "it loses cyan and leaves the stack; an empty stack means done"
    state, _ = worker["outer"].pop()
    worker["cyan"].remove(state)
    worker["place"] = "outer" if worker["outer"] else "done"


def has_successor_left(machine, stack):
    state, taken = stack[-1]
    return taken < len(machine["graph"].successors[state])


def take_successor(machine, worker, stack):
    # "starting at number p mod d and going round once, in both searches"
    state, taken = stack[-1]
    successors = machine["graph"].successors[state]
    stack[-1][1] = taken + 1
    return successors[(worker["number"] + taken) % len(successors)]


def move_1_not_started(machine, worker):
    # "the initial state becomes cyan and the outer stack's only entry, blue or not"
    enter_outer(machine, worker, 0)
    worker["place"] = "outer"


def move_2_outer_take(machine, worker):
    state = take_successor(machine, worker, worker["outer"])
    if state not in worker["cyan"] and state not in machine["blue"]:
        enter_outer(machine, worker, state)


def move_3_outer_none_left(machine, worker):
    # "If accepting, it becomes the seed, R holds only it, and it starts the inner stack, red or not."
    top = worker["outer"][-1][0]
    machine["blue"].add(top)
    if not machine["graph"].flags[top]:
        leave_outer(worker)
        return
    worker["place"] = "inner"
    worker["seed"] = top
    worker["R"] = set()
    enter_inner(machine, worker, top)


def move_4_inner_take(machine, worker):
    """Returns the state taken if it answers "cycle", else None. Only the worker's own cyan counts."""
    state = take_successor(machine, worker, worker["inner"])
    if state in worker["cyan"]:
        return state
    if state not in worker["R"] and state not in machine["red"]:
        enter_inner(machine, worker, state)
    return None


def move_5_inner_none_left(worker):
    worker["inner"].pop()
    if not worker["inner"]:
        worker["place"] = "waiting"


def may_go_on(machine, worker):
    # "every accepting state of R other than the seed is red"
    flags = machine["graph"].flags
    return all(state == worker["seed"] or state in machine["red"] for state in worker["R"] if flags[state])


def move_6_waiting(machine, worker):
    """Returns whether something changed; if nothing did, it was a wait."""
    if not may_go_on(machine, worker):
        machine["tally"]["waits"] += 1
        return False
    machine["red"] |= worker["R"]
    worker["R"] = set()
    worker["seed"] = None
    leave_outer(worker)
    return True


def move(machine, p):
    """One turn of worker p. Returns the state c on whose taking the answer is "cycle", else None."""
    worker = machine["workers"][p]
    place = worker["place"]
    changed, closing = True, None
    if place == "fresh":
        move_1_not_started(machine, worker)
    elif place == "outer" and has_successor_left(machine, worker["outer"]):
        move_2_outer_take(machine, worker)
    elif place == "outer":
        move_3_outer_none_left(machine, worker)
    elif place == "inner" and has_successor_left(machine, worker["inner"]):
        closing = move_4_inner_take(machine, worker)
    elif place == "inner":
        move_5_inner_none_left(worker)
    elif place == "waiting":
        changed = move_6_waiting(machine, worker)
    else:
        changed = False  # 7. "Done: nothing changes."
    machine["tally"]["changes"] += changed
    return closing


# ---- Runs

def lasso(worker, c):
    # "the stem is the outer stack below c; the loop is the outer stack from c up to the seed, then the inner stack above the seed"
    outer = [state for state, _ in worker["outer"]]
    inner = [state for state, _ in worker["inner"]]
    cut = outer.index(c)
    return outer[:cut], outer[cut:] + inner[1:]


def all_done(machine):
    return all(worker["place"] == "done" for worker in machine["workers"])


def run(graph, worker_count, turns):
    # "Turns after an answer are not run; the result tells how many were used. A list that ends first, also the empty one, gives undecided."
    machine = fresh_machine(graph, worker_count)
    used = 0
    for p in turns:
        closing = move(machine, p)
        used += 1
        if closing is not None:
            stem, loop = lasso(machine["workers"][p], closing)
            return Result("cycle", stem, loop, used, machine)
        if machine["workers"][p]["place"] == "done" and all_done(machine):
            return Result("none", [], [], used, machine)
    return Result("undecided", [], [], used, machine)


def run_turns(graph, worker_count, turns):
    """The run over a given turn list, with its refusals 9 and 13 in that order. Returns a Result or a Refusal."""
    if not 1 <= worker_count <= MOST_WORKERS:
        return Refusal(9, 0)
    # "Every turn of the list is checked for 13, also those after an answer."
    if any(turn >= worker_count for turn in turns):
        return Refusal(13, 0)
    return run(graph, worker_count, turns)


def run_to_the_end(graph, worker_count):
    # "takes worker count 0 too: it means the house's usual, two; it can't give 13"
    if worker_count == 0:
        worker_count = USUAL_WORKERS
    if not 1 <= worker_count <= MOST_WORKERS:
        return Refusal(9, 0)
    return run(graph, worker_count, itertools.cycle(range(worker_count)))


# ---- Printing

def record(*fields):
    """One line of output: fields parted by one tab, ended by a line feed."""
    return b"\t".join(field if isinstance(field, bytes) else str(field).encode() for field in fields) + b"\n"


def print_refusal(refusal):
    return record("refused", refusal.number, refusal.line)


def print_result(labels, result):
    # "Line 1 is the answer ..; then one line a state of stem and of loop, in order; then the tally in the order above."
    lines = [record("answer", result.answer)]
    lines += [record("stem", labels[state]) for state in result.stem]
    lines += [record("loop", labels[state]) for state in result.loop]
    tally = result.machine["tally"]
    lines.append(record("tally", tally["outer entries"], tally["inner entries"], tally["waits"], tally["changes"]))
    return b"".join(lines)


def print_worker(labels, worker):
    seed = [] if worker["seed"] is None else [labels[worker["seed"]]]
    return record("worker", worker["number"], worker["place"], len(worker["outer"]), len(worker["inner"]), *seed)


# ---- The programs

def skiffplank(text):
    graph = read(text, SKIFFPLANK_ROOMS)
    if isinstance(graph, Refusal):
        return print_refusal(graph)
    return print_result(graph.labels, run_to_the_end(graph, 2))


def count_of(word):
    """The number a WORKERS word names, or None if it is none. Long numbers are all alike: far over eight."""
    if not re.match(rb"[0-9]+\Z", word):
        return None
    digits = word.lstrip(b"0")
    return int(digits or b"0") if len(digits) < 10 else 10 ** 9


def turns_of(word):
    """The turns a TURNS word names, "end" for the run to the end, or None if it is neither."""
    if word == b"end":
        return "end"
    if word == b"-":
        return []
    return [byte - ord("0") for byte in word] if re.match(rb"[0-9]+\Z", word) else None


def replay(words, text):
    worker_count = count_of(words[0]) if len(words) == 2 else None
    turns = turns_of(words[1]) if len(words) == 2 else None
    if worker_count is None or turns is None:
        return record("usage", "replay WORKERS TURNS")
    graph = read(text, REPLAY_ROOMS)
    if isinstance(graph, Refusal):
        return print_refusal(graph)
    result = run_to_the_end(graph, worker_count) if turns == "end" else run_turns(graph, worker_count, turns)
    if isinstance(result, Refusal):
        return print_refusal(result)
    workers = [print_worker(graph.labels, worker) for worker in result.machine["workers"]]
    return print_result(graph.labels, result) + record("used", result.used) + b"".join(workers)


def main(words):
    text = sys.stdin.buffer.read()
    if words[:1] == ["skiffplank"]:
        sys.stdout.buffer.write(skiffplank(text))
    elif words[:1] == ["replay"]:
        sys.stdout.buffer.write(replay([os.fsencode(word) for word in words[1:]], text))
    else:
        sys.exit("model.py skiffplank | replay WORKERS TURNS")


if __name__ == "__main__":
    main(sys.argv[1:])
