#!/usr/bin/env python3
"""Compares verdicts on random properties and looping runs with those of an outside tool.

The outside tool is lbt (Debian package `lbt`), which turns a formula of linear temporal logic into a generalized
Buchi automaton. A looping run satisfies the formula exactly if the automaton accepts the infinite word that the run
spells: if the product of the run and the automaton has a reachable cycle that meets every acceptance set. As a check
of that way of asking, the automaton of the negation is built too, and exactly one of the two has to accept.

What is compared with it is the program `why`, when --why gives its path: each pair is written as a case file to its
standard input, and the line `verdict=holds` or `verdict=fails` is read. Without --why it is the small evaluator below.

The exit status is 0 if all pairs agree, 1 if some differ, 2 if lbt is missing.
"""

import argparse
import random
import shutil
import subprocess
import sys

BOOLS = ["READ", "GO", "X1"]  # names that begin with an operator's letter are names
NUMS = ["TEMP", "UU"]
UNARY = ["!", "X", "F", "G"]
BINARY = ["&", "|", "->", "U"]
LEVEL = {"->": 0, "|": 1, "&": 2, "U": 3}
TIGHT = 4  # the level of a single: an atom, a bracket, or an operator before a single


def random_property(rng, nodes):
    """A random tree with that many nodes: ("atom", name, comparison, number), (operator, side) or (operator, left, right)."""
    if nodes == 1:
        if rng.random() < 0.75:
            return ("atom", rng.choice(BOOLS), None, None)
        return ("atom", rng.choice(NUMS), rng.choice("=<>"), rng.randint(-2, 2))
    if nodes == 2 or rng.random() < 0.45:
        return (rng.choice(UNARY), random_property(rng, nodes - 1))
    left = rng.randint(1, nodes - 2)
    return (rng.choice(BINARY), random_property(rng, left), random_property(rng, nodes - 1 - left))


def random_run(rng, longest):
    """A random looping run: a value of each signal at each step, and the place (from 0) that comes after the last."""
    length = rng.randint(1, longest)
    bias = rng.choice([0.2, 0.5, 0.8])
    rows = []
    for _ in range(length):
        row = {name: int(rng.random() < bias) for name in BOOLS}
        row.update({name: rng.randint(-2, 2) for name in NUMS})
        rows.append(row)
    return rows, rng.randrange(length)


def atoms_of(tree):
    if tree[0] == "atom":
        return {tree}
    return set().union(*(atoms_of(side) for side in tree[1:]))


def operators_of(tree):
    if tree[0] == "atom":
        return {"bool" if tree[2] is None else tree[2]}
    return {tree[0]}.union(*(operators_of(side) for side in tree[1:]))


def atom_holds(atom, row):
    _, name, comparison, number = atom
    value = row[name]
    if comparison is None:
        return value == 1
    return {"=": value == number, "<": value < number, ">": value > number}[comparison]


def tokens_of(tree, rng, level=0):
    """The tree as the words and signs of the property's text, bracketed where the grammar needs it, and sometimes elsewhere."""
    if tree[0] == "atom":
        _, name, comparison, number = tree
        tokens, own = ([name] if comparison is None else [name, comparison, str(number)]), TIGHT
    elif len(tree) == 2:
        tokens, own = [tree[0]] + tokens_of(tree[1], rng, TIGHT), TIGHT
    else:
        own = LEVEL[tree[0]]
        # `->` and `U` group to the right, `|` and `&` to the left
        left, right = (own + 1, own) if tree[0] in ("->", "U") else (own, own + 1)
        tokens = tokens_of(tree[1], rng, left) + [tree[0]] + tokens_of(tree[2], rng, right)
    if own < level or rng.random() < 0.15:
        return ["("] + tokens + [")"]
    return tokens


def text_of(tree, rng):
    """The property's text: a space stands between two words, and sometimes elsewhere."""
    text = ""
    for token in tokens_of(tree, rng):
        if text and (text[-1].isalnum() or text[-1] == "_") and token[0].isalnum():
            text += " "
        text += " " * rng.choice([0, 0, 1, 2]) + token
    return text


def case_file(tree, run, rng):
    rows, back = run
    names = BOOLS + NUMS
    lines = ["case=1", f"signals={len(names)}"]
    lines += [f"signal={name},bool,-" for name in BOOLS] + [f"signal={name},num,-" for name in NUMS]
    lines += [f"steps={len(rows)}", f"loop={back + 1}"]
    lines += ["row=" + ",".join(str(row[name]) for name in names) for row in rows]
    lines.append("prop=" + text_of(tree, rng))
    return "\n".join(lines) + "\n"


def lbt_text(tree, numbers):
    """The tree in lbt's prefix form."""
    if tree[0] == "atom":
        return f"p{numbers[tree]}"
    sign = "i" if tree[0] == "->" else tree[0]
    return " ".join([sign] + [lbt_text(side, numbers) for side in tree[1:]])


def read_guard(tokens, at):
    """A guard in prefix form, as a function of the set of atoms that hold, and the place after it."""
    token = tokens[at]
    if token == "t":
        return (lambda letter: True), at + 1
    if token == "f":
        return (lambda letter: False), at + 1
    if token == "!":
        inner, end = read_guard(tokens, at + 1)
        return (lambda letter: not inner(letter)), end
    if token in ("&", "|"):
        left, middle = read_guard(tokens, at + 1)
        right, end = read_guard(tokens, middle)
        if token == "&":
            return (lambda letter: left(letter) and right(letter)), end
        return (lambda letter: left(letter) or right(letter)), end
    number = int(token[1:])
    return (lambda letter: number in letter), at + 1


def read_automaton(text):
    """lbt's output: the number of acceptance sets, the initial state, and of each state its sets and its transitions."""
    tokens = text.split()
    states, sets = int(tokens[0]), int(tokens[1])
    at, initial, accepts, moves = 2, None, {}, {}
    for _ in range(states):
        state = int(tokens[at])
        if tokens[at + 1] == "1":
            initial = state
        at += 2
        accepts[state], moves[state] = set(), []
        while tokens[at] != "-1":
            accepts[state].add(int(tokens[at]))
            at += 1
        at += 1
        while tokens[at] != "-1":
            target = int(tokens[at])
            guard, at = read_guard(tokens, at + 1)
            moves[state].append((target, guard))
        at += 1
    return sets, initial, accepts, moves


def accepted(automaton, letters, back):
    """Whether the automaton accepts the word: a reachable cycle of the product meets every acceptance set."""
    sets, initial, accepts, moves = automaton

    def successors(node):
        state, place = node
        following = place + 1 if place + 1 < len(letters) else back
        return [(target, following) for target, guard in moves[state] if guard(letters[place])]

    if initial is None:
        return False
    for component in components((initial, 0), successors):
        inside = set(component)
        cyclic = any(target in inside for node in component for target in successors(node))
        met = set().union(*(accepts[state] for state, _ in component))
        if cyclic and len(met) == sets:
            return True
    return False


def components(start, successors):
    """The strongly connected components that can be reached (Tarjan, without recursion)."""
    order, low, stacked, stack, found = {}, {}, set(), [], []
    work = [(start, None)]
    while work:
        node, rest = work.pop()
        if rest is None:
            if node in order:
                continue
            order[node] = low[node] = len(order)
            stack.append(node)
            stacked.add(node)
            rest = successors(node)
            work.append((node, rest))
            work.extend((target, None) for target in rest if target not in order)
            continue
        for target in rest:
            if target in stacked:
                low[node] = min(low[node], low[target])
        if low[node] == order[node]:
            component = []
            while True:
                member = stack.pop()
                stacked.discard(member)
                component.append(member)
                if member == node:
                    break
            found.append(component)
    return found


def automaton_of(lbt, tree, numbers, seconds):
    """The automaton of the tree, or None where lbt takes too long."""
    try:
        made = subprocess.run([lbt], input=lbt_text(tree, numbers) + "\n", capture_output=True, text=True, timeout=seconds, check=True)
    except subprocess.TimeoutExpired:
        return None
    return read_automaton(made.stdout)


def evaluate(tree, run):
    """The truth of the tree at each place of the run, as the least or greatest fixed point of its unfolding."""
    rows, back = run
    places = range(len(rows))
    if tree[0] == "atom":
        return [atom_holds(tree, row) for row in rows]
    sides = [evaluate(side, run) for side in tree[1:]]
    following = [place + 1 for place in places[:-1]] + [back]
    if tree[0] == "!":
        return [not a for a in sides[0]]
    if tree[0] == "X":
        return [sides[0][following[place]] for place in places]
    if tree[0] == "&":
        return [a and b for a, b in zip(*sides)]
    if tree[0] == "|":
        return [a or b for a, b in zip(*sides)]
    if tree[0] == "->":
        return [not a or b for a, b in zip(*sides)]
    if tree[0] == "U":
        step = lambda place, now: sides[1][place] or (sides[0][place] and now[following[place]])
    elif tree[0] == "F":
        step = lambda place, now: sides[0][place] or now[following[place]]
    else:
        step = lambda place, now: sides[0][place] and now[following[place]]
    truths = [tree[0] == "G"] * len(rows)
    while True:
        changed = [step(place, truths) for place in places]
        if changed == truths:
            return truths
        truths = changed


def verdict_of(why, case):
    """What `why` says of the case: True, False, or its whole output where it gives no verdict."""
    ran = subprocess.run([why], input=case, capture_output=True, text=True, timeout=60)
    for line in ran.stdout.splitlines():
        if line == "verdict=holds":
            return True
        if line == "verdict=fails":
            return False
    return f"status {ran.returncode}: {ran.stdout[:200]!r}"


def arguments():
    parser = argparse.ArgumentParser(description=__doc__, formatter_class=argparse.RawDescriptionHelpFormatter)
    parser.add_argument("--why", metavar="PATH", help="the program to compare; without it, the evaluator of this file")
    parser.add_argument("--lbt", default="lbt", help="the outside tool")
    parser.add_argument("--properties", type=int, default=500, help="how many properties")
    parser.add_argument("--runs", type=int, default=5, help="how many runs for each")
    parser.add_argument("--nodes", type=int, default=12, help="the most nodes of a property")
    parser.add_argument("--steps", type=int, default=8, help="the most steps of a run, at most 16")
    parser.add_argument("--seed", type=int, default=1)
    return parser.parse_args()


def main():
    options = arguments()
    lbt = shutil.which(options.lbt)
    if lbt is None:
        print("lbt is missing: apt-get install lbt", file=sys.stderr)
        return 2
    rng = random.Random(options.seed)
    pairs, holding, differing, skipped, seen = 0, 0, 0, 0, set()
    made = 0
    while made < options.properties:
        tree = random_property(rng, rng.randint(1, options.nodes))
        numbers = {atom: number for number, atom in enumerate(sorted(atoms_of(tree), key=repr))}
        automaton = automaton_of(lbt, tree, numbers, 10)
        negation = automaton_of(lbt, ("!", tree), numbers, 10)
        if automaton is None or negation is None:
            skipped += 1
            continue
        made += 1
        seen |= operators_of(tree)
        for _ in range(options.runs):
            run = random_run(rng, options.steps)
            rows, back = run
            letters = [{numbers[atom] for atom in numbers if atom_holds(atom, row)} for row in rows]
            expected = accepted(automaton, letters, back)
            case = case_file(tree, run, rng)
            if accepted(negation, letters, back) == expected:
                print(f"the property and its negation agree on\n{case}")
                differing += 1
            given = verdict_of(options.why, case) if options.why else evaluate(tree, run)[0]
            if given is not expected:
                print(f"expected {'holds' if expected else 'fails'}, given {given}, on\n{case}")
                differing += 1
            pairs += 1
            holding += expected
    print(
        f"{pairs} pairs of {made} properties, {holding} hold, {pairs - holding} fail; {differing} differ; "
        f"{skipped} properties left out, for which lbt took over 10 s; seen: {' '.join(sorted(seen))}"
    )
    return 1 if differing else 0


if __name__ == "__main__":
    sys.exit(main())
